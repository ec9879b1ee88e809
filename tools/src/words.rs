//! The words of a line to a record's bytes (docs/TRACES.md).

use crate::edition::{Edition, RSM, SEGMENT_OPCODES};
use crate::form::{BOUNDARY, HALT, IN, OPCODE, OUT, READ, REGISTERS, RESET, WAKE, WRITE};

pub const INTERRUPTIONS: [&str; 7] = [
    "none",
    "input",
    "output",
    "string-input",
    "string-output",
    "rep-input",
    "rep-output",
];
pub const SEGMENTS: [&str; 6] = ["es", "cs", "ss", "ds", "fs", "gs"];
/// ModRM of a mnemonic: an address alone (mod 0, r/m 5); the middle field is added.
pub const ADDRESS_ALONE: u8 = 0x05;

/// A text cut to so many characters.
pub fn shortened(text: &str, most: usize) -> String {
    let cut: String = text.chars().take(most).collect();
    if cut.len() < text.len() {
        cut + ".."
    } else {
        cut
    }
}

/// A word in a message, whatever a file holds.
pub fn quoted(word: &str) -> String {
    format!("`{}`", shortened(word, 40))
}

/// A number of just so many hex digits.
pub fn hex(digits: &str, count: usize) -> Option<u64> {
    let all = digits.len() == count && digits.bytes().all(|b| b.is_ascii_hexdigit());
    all.then(|| u64::from_str_radix(digits, 16).ok())?
}

/// A number of at most so many bits: decimal, or hex with a trailing h or a leading 0x.
pub fn parse_number(word: &str, bits: u32) -> Result<u32, String> {
    let leading = word.strip_prefix("0x").or(word.strip_prefix("0X"));
    let (digits, radix) = match (leading, word.strip_suffix(['h', 'H'])) {
        (Some(digits), _) | (None, Some(digits)) => (digits, 16),
        (None, None) => (word, 10),
    };
    // from_str_radix alone would take a sign too.
    if digits.is_empty() || !digits.chars().all(|c| c.is_digit(radix)) {
        let word = quoted(word);
        return Err(format!(
            "{word} is no number: write 34, or hex as 22h or 0x22"
        ));
    }
    match u64::from_str_radix(digits, radix) {
        Ok(n) if n < 1u64 << bits => Ok(n as u32),
        _ => Err(format!("{} doesn't fit {bits} bits", quoted(word))),
    }
}

/// Which of the names a word is, in small letters or in capitals.
fn index_of(names: &[&str], word: &str) -> Option<usize> {
    names
        .iter()
        .position(|name| name.eq_ignore_ascii_case(word))
}

/// The words after a record's name, taken one by one: first those by place, then those by key.
struct Words<'a> {
    name: &'a str,
    left: Vec<&'a str>,
}

impl<'a> Words<'a> {
    fn next(&mut self, what: &str) -> Result<&'a str, String> {
        match self.left.first() {
            Some(word) if !word.contains('=') => Ok(self.left.remove(0)),
            _ => Err(format!("`{}` lacks its {what}", self.name)),
        }
    }

    fn next_number(&mut self, what: &str, bits: u32) -> Result<u32, String> {
        let word = self.next(what)?;
        parse_number(word, bits).map_err(|e| format!("{what}: {e}"))
    }

    fn key(&mut self, key: &str) -> Option<&'a str> {
        let found = self.left.iter().position(|w| {
            w.split_once('=')
                .is_some_and(|(k, _)| k.eq_ignore_ascii_case(key))
        })?;
        self.left
            .remove(found)
            .split_once('=')
            .map(|(_, value)| value)
    }

    /// A field that is not written is 0.
    fn key_number(&mut self, key: &str, bits: u32) -> Result<u32, String> {
        match self.key(key) {
            None => Ok(0),
            Some(word) => parse_number(word, bits).map_err(|e| format!("{key}: {e}")),
        }
    }

    /// All words must have been taken: a field given twice or unknown is left over.
    fn done(&self) -> Result<(), String> {
        match self.left.first() {
            None => Ok(()),
            Some(word) => Err(format!(
                "`{}` doesn't take {}, or not twice",
                self.name,
                quoted(word)
            )),
        }
    }
}

#[derive(Default)]
struct Body(Vec<u8>);

impl Body {
    fn u8(mut self, n: u32) -> Body {
        self.0.push(n as u8);
        self
    }

    fn u16(mut self, n: u32) -> Body {
        self.0.extend_from_slice(&(n as u16).to_le_bytes());
        self
    }

    fn u32(mut self, n: u32) -> Body {
        self.0.extend_from_slice(&n.to_le_bytes());
        self
    }

    fn bytes(mut self, b: &[u8]) -> Body {
        self.0.extend_from_slice(b);
        self
    }

    fn record(self, kind: u16) -> Vec<u8> {
        let mut out = Body::default()
            .u16(self.0.len() as u32 + 2)
            .u16(kind.into())
            .0;
        out.extend_from_slice(&self.0);
        out
    }
}

/// The bytes of the record that a line's words name in this edition, or of a `raw` line.
pub fn record(words: &[&str], edition: Edition) -> Result<Vec<u8>, String> {
    let name = words[0].to_ascii_lowercase();
    let mut w = Words {
        name: &name,
        left: words[1..].to_vec(),
    };
    let body = Body::default();
    let bytes = match name.as_str() {
        "reset" => body.record(RESET),
        "halt" => body.record(HALT),
        "wake" => body.record(WAKE),
        "registers" => registers(&mut w)?,
        "read" => body
            .u8(w.next_number("width", 8)?)
            .u32(w.next_number("address", 32)?)
            .record(READ),
        "write" => body
            .u8(w.next_number("width", 8)?)
            .u32(w.next_number("address", 32)?)
            .u32(w.next_number("value", 32)?)
            .record(WRITE),
        "in" => body.u16(w.next_number("port", 16)?).record(IN),
        "out" => body
            .u16(w.next_number("port", 16)?)
            .u8(w.next_number("value", 8)?)
            .record(OUT),
        "opcode" => {
            let byte = w.next_number("byte", 8)?;
            let modrm = w.key_number("modrm", 8)?;
            opcode(
                byte,
                modrm,
                w.key_number("address", 32)?,
                w.key_number("next", 32)?,
            )
        }
        "smint" => opcode(edition.smint().into(), 0, 0, w.key_number("next", 32)?),
        "rsm" => opcode(RSM.into(), 0, 0, 0),
        "boundary" => boundary(&mut w)?,
        "raw" => return raw(&words[1..]),
        _ => {
            let (place, byte) = edition.operand_opcode(words[0])?;
            operand_opcode(place, byte, &mut w)?
        }
    };
    w.done()?;
    Ok(bytes)
}

fn registers(w: &mut Words) -> Result<Vec<u8>, String> {
    let body = Body::default()
        .u32(w.key_number("eip", 32)?)
        .u32(w.key_number("eflags", 32)?)
        .u32(w.key_number("cr0", 32)?)
        .u32(w.key_number("dr7", 32)?);
    let (selector, descriptor) = match w.key("cs") {
        None => (0, [0; 8]),
        Some(cs) => {
            let (s, d) = cs
                .split_once(':')
                .ok_or("cs: not of the form SELECTOR:DESCRIPTOR")?;
            (
                parse_number(s, 16).map_err(|e| format!("cs: {e}"))?,
                parse_descriptor(d)?,
            )
        }
    };
    Ok(body
        .u16(selector)
        .bytes(&descriptor)
        .u8(w.key_number("level", 8)?)
        .u8(w.key_number("writable", 8)?)
        .record(REGISTERS))
}

/// Eight bytes in the order of memory, as document 01 writes them.
fn parse_descriptor(digits: &str) -> Result<[u8; 8], String> {
    let descriptor = hex(digits, 16).map(u64::to_be_bytes);
    descriptor.ok_or_else(|| format!("the descriptor {} is not 16 hex digits", quoted(digits)))
}

fn opcode(byte: u32, modrm: u32, address: u32, next: u32) -> Vec<u8> {
    Body::default()
        .u8(byte)
        .u8(modrm)
        .u32(address)
        .u32(next)
        .record(OPCODE)
}

fn operand_opcode(place: usize, byte: u8, w: &mut Words) -> Result<Vec<u8>, String> {
    let mut field = 0;
    if place < SEGMENT_OPCODES {
        let name = w.next("segment")?;
        let wrong = || format!("{} is no segment: {}", quoted(name), SEGMENTS.join(", "));
        field = index_of(&SEGMENTS, name).ok_or_else(wrong)? as u32;
    }
    let address = w.next_number("address", 32)?;
    Ok(opcode(
        byte.into(),
        u32::from(ADDRESS_ALONE) | field << 3,
        address,
        w.key_number("next", 32)?,
    ))
}

fn boundary(w: &mut Words) -> Result<Vec<u8>, String> {
    let body = Body::default()
        .u8(w.key_number("smi", 8)?)
        .u32(w.key_number("current", 32)?);
    let name = w.left.iter().position(|word| !word.contains('='));
    let code = match (name, w.key("code")) {
        (Some(_), Some(_)) => return Err("an interruption has a name or a code, not both".into()),
        (None, Some(code)) => parse_number(code, 8).map_err(|e| format!("code: {e}"))?,
        (None, None) => return Err("`boundary` lacks its interruption (none, input, ..)".into()),
        (Some(place), None) => {
            let name = w.left.remove(place);
            let names = INTERRUPTIONS.join(", ");
            let wrong = || format!("{} is no interruption: {names}", quoted(name));
            index_of(&INTERRUPTIONS, name).ok_or_else(wrong)? as u32
        }
    };
    Ok(body
        .u8(code)
        .u16(w.key_number("port", 16)?)
        .u8(w.key_number("size", 8)?)
        .u32(w.key_number("data", 32)?)
        .u32(w.key_number("index", 32)?)
        .record(BOUNDARY))
}

fn raw(words: &[&str]) -> Result<Vec<u8>, String> {
    if words.is_empty() {
        return Err("`raw` lacks its bytes".into());
    }
    let byte = |word: &&str| {
        let byte = hex(word, 2).map(|byte| byte as u8);
        byte.ok_or_else(|| format!("{} is not two hex digits", quoted(word)))
    };
    words.iter().map(byte).collect()
}
