//! Bytes of a trace as text (docs/TRACES.md).

use crate::edition::{Edition, RSM, SEGMENT_OPCODES};
use crate::form::{
    first_sound, items, Item, Record, BOUNDARY, HALT, IN, OPCODE, OUT, READ, REGISTERS, RESET,
    WAKE, WRITE,
};
use crate::words::{ADDRESS_ALONE, INTERRUPTIONS, SEGMENTS};

/// A line for each record, and two for each group, round what it holds; `raw` lines for what is left
/// at the first that is torn or bad, an outermost group with anything wrong in it too: the text always
/// stands for the same bytes. It says its edition where a text that says none is of another.
pub fn show_trace(mut bytes: &[u8], edition: Edition) -> String {
    let mut out = String::new();
    if edition != Edition::default() {
        out.push_str(&format!("edition {}\n", edition.word()));
    }
    while let Ok((item, rest)) = first_sound(bytes) {
        show_item(&item, edition, 0, &mut out);
        bytes = rest;
    }
    for chunk in bytes.chunks(16) {
        let chunk: String = chunk.iter().map(|b| format!(" {b:02X}")).collect();
        out.push_str(&format!("raw{chunk}\n"));
    }
    out
}

/// A record or a sound group, which stands in so many groups.
fn show_item(item: &Item, edition: Edition, level: usize, out: &mut String) {
    let indent = "  ".repeat(level);
    match item {
        Item::Record(record) => {
            let record = show_record(record, edition);
            out.push_str(&format!("{indent}{record}\n"));
        }
        Item::Group(group) => {
            out.push_str(&format!("{indent}group {}\n", group.count));
            for inner in items(group.list) {
                show_item(&inner, edition, level + 1, out);
            }
            out.push_str(&format!("{indent}end-group\n"));
        }
    }
}

pub fn show_record(record: &Record, edition: Edition) -> String {
    let mut f = Fields(record.body);
    match record.kind {
        RESET => "reset".into(),
        HALT => "halt".into(),
        WAKE => "wake".into(),
        REGISTERS => {
            let (eip, eflags, cr0, dr7) = (f.show(4), f.show(4), f.show(4), f.show(4));
            let selector = f.show(2);
            let descriptor: String = (0..8).map(|_| format!("{:02X}", f.number(1))).collect();
            let (level, writable) = (f.show(1), f.show(1));
            format!(
                "registers eip={eip} eflags={eflags} cr0={cr0} dr7={dr7} cs={selector}:{descriptor} \
                 level={level} writable={writable}"
            )
        }
        READ => format!("read {} {}", f.show(1), f.show(4)),
        WRITE => format!("write {} {} {}", f.show(1), f.show(4), f.show(4)),
        IN => format!("in {}", f.show(2)),
        OUT => format!("out {} {}", f.show(2), f.show(1)),
        OPCODE => show_opcode(
            edition,
            f.number(1) as u8,
            f.number(1) as u8,
            f.number(4),
            f.number(4),
        ),
        BOUNDARY => show_boundary(&mut f),
        kind => unreachable!("no record has the kind {kind}"),
    }
}

fn show_number(n: u32) -> String {
    match n {
        0..=9 => n.to_string(),
        _ => format!("{n:X}h"),
    }
}

/// A record's fields, taken in order.
struct Fields<'a>(&'a [u8]);

impl Fields<'_> {
    /// The next so many bytes as a little-endian number.
    fn number(&mut self, bytes: usize) -> u32 {
        let (field, rest) = self.0.split_at(bytes);
        self.0 = rest;
        field
            .iter()
            .rev()
            .fold(0, |n, byte| n << 8 | u32::from(*byte))
    }

    fn show(&mut self, bytes: usize) -> String {
        show_number(self.number(bytes))
    }
}

/// The mnemonic where it stands for just these bytes, else the general form.
fn show_opcode(edition: Edition, byte: u8, modrm: u8, address: u32, next: u32) -> String {
    let mut named = edition.operand_opcodes().iter().enumerate();
    let segment = SEGMENTS.get((modrm >> 3 & 7) as usize);
    let (shown_address, shown_next) = (show_number(address), show_number(next));
    match (named.find(|(_, (_, known))| *known == byte), segment) {
        (Some((place, (name, _))), Some(segment))
            if place < SEGMENT_OPCODES && modrm & 0xC7 == ADDRESS_ALONE =>
        {
            format!("{name} {segment} {shown_address} next={shown_next}")
        }
        (Some((place, (name, _))), _) if place >= SEGMENT_OPCODES && modrm == ADDRESS_ALONE => {
            format!("{name} {shown_address} next={shown_next}")
        }
        _ if byte == edition.smint() && (modrm, address) == (0, 0) => {
            format!("smint next={shown_next}")
        }
        _ if byte == RSM && (modrm, address, next) == (0, 0, 0) => "rsm".into(),
        _ => format!(
            "opcode {} modrm={} address={shown_address} next={shown_next}",
            show_number(byte.into()),
            show_number(modrm.into())
        ),
    }
}

fn show_boundary(f: &mut Fields) -> String {
    let (smi, current) = (f.show(1), f.show(4));
    let code = f.number(1);
    let interruption = match INTERRUPTIONS.get(code as usize) {
        Some(name) => (*name).into(),
        None => format!("code={}", show_number(code)),
    };
    let mut out = format!("boundary smi={smi} current={current} {interruption}");
    for (key, bytes) in [("port", 2), ("size", 1), ("data", 4), ("index", 4)] {
        let field = f.number(bytes);
        if field != 0 {
            out.push_str(&format!(" {key}={}", show_number(field)));
        }
    }
    out
}
