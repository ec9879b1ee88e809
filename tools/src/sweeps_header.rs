//! Sweeps of the header, entry, RSM and reset.

use crate::sweep::{Boundary, Registers, Sweep, Trace};
use crate::sweep_states::*;

/// A number with one bit set or, from 32 on, with one bit clear.
fn walking(k: u32, turn: u32) -> u32 {
    let one = 1u32.rotate_left(k + turn);
    if k < 32 {
        one
    } else {
        !one
    }
}

fn walking_registers(k: u32) -> Registers {
    Registers {
        eip: walking(k, 0),
        eflags: walking(k, 5),
        cr0: walking(k, 10),
        dr7: walking(k, 15),
        selector: walking(k, 20) as u16,
        descriptor: u64::from(walking(k, 25)) << 32 | u64::from(walking(k, 30)),
        level: (k % 4) as u8,
        writable: (k / 4 % 2) as u8,
    }
}

fn read_header(t: &mut Trace, end: u32, words: &[u32; 12]) {
    for (address, word) in (0..12).map(|place| end - 48 + 4 * place).zip(words) {
        t.read(4, address, Some(*word));
    }
}

/// What an entry records beside registers and boundary.
#[derive(Clone, Copy, Default)]
struct Entry {
    halted: bool,
    nested: bool,
    /// SMINT's next address, if it was SMINT.
    smint: Option<u32>,
}

/// 01, "Forty-eight bytes below the top", and 02, requests 3 and 7: the words from -30h upward.
fn header_words(r: &Registers, b: &Boundary, entry: Entry) -> [u32; 12] {
    let (ones, data) = match (b.is_output(), b.size) {
        (false, _) => (0, 0),
        (true, 1) => (0x1, b.data & 0xFF),
        (true, 2) => (0x3, b.data & 0xFFFF),
        (true, _) => (0xF, b.data),
    };
    let (c, i, p) = (r.writable == 1, b.is_output(), b.is_rep());
    let (s, h, n) = (entry.smint.is_some(), entry.halted, entry.nested);
    let bits = [(c, 0), (i, 1), (p, 2), (s, 3), (h, 4), (n, 15)];
    [
        b.index,                                                     // -30h
        data,                                                        // -2Ch
        u32::from(b.port) | ones << 16,                              // -28h
        bits.map(|(on, place)| u32::from(on) << place).iter().sum(), // -24h
        r.descriptor as u32,                                         // -20h
        (r.descriptor >> 32) as u32,                                 // -1Ch
        u32::from(r.selector) | u32::from(r.level) << 21,            // -18h
        entry.smint.unwrap_or(if p { b.current } else { r.eip }),    // -14h, next IP
        if h || s { r.eip } else { b.current },                      // -10h, current IP
        r.cr0,                                                       // -Ch
        r.eflags,                                                    // -8h
        r.dr7,                                                       // -4h
    ]
}

/// The same: each bit of each field; with a string output of 4 bytes, with the other interruptions and
/// sizes in turn, halted, and by SMINT.
pub fn header(sweep: &mut Sweep) {
    let t = sweep.fresh();
    t.enabled(0);
    for k in 0..64 {
        let mut r = walking_registers(k);
        for (interruption, sizes) in [(4, &[4][..]), (k as u8 % 7, &[1, 2, 4])] {
            let mut b = Boundary::new(1, interruption);
            b.current = walking(k, 3);
            if b.is_output() {
                (b.port, b.data) = (walking(k, 8) as u16, walking(k, 13));
                b.size = sizes[k as usize / 7 % sizes.len()];
            }
            if b.is_string() {
                b.index = walking(k, 18);
            }
            let mut entry = Entry::default();
            entry.halted = interruption == 0;
            t.registers(&r, 0);
            if entry.halted {
                t.halt(0);
            }
            t.boundary(&b, 11);
            read_header(t, header_end(t.mii), &header_words(&r, &b, entry));
            t.rsm(12);
        }
        if k % 4 == 0 {
            let next = walking(k, 2);
            let mut entry = Entry::default();
            entry.smint = Some(next);
            r.level = 0;
            t.registers(&r, 0);
            t.set(CCR1, USE_SMI | SMAC);
            t.opcode(smint(t.mii), 0xFF, walking(k, 7), next, 11);
            let words = header_words(&r, &Boundary::default(), entry);
            read_header(t, header_end(t.mii), &words);
            t.set(CCR1, USE_SMI);
            t.rsm(12);
        }
    }
}

/// The same, and 02, request 1: the header ends with the region, of each size, or in the MII edition at
/// SMHR, wherever that is in the region.
pub fn header_place(sweep: &mut Sweep) {
    for (base, code) in [
        (0x71000, 1),
        (0x72000, 2),
        (0x74000, 3),
        (0x78000, 4),
        (0x70000, 5),
    ] {
        let (first, last) = (base + 48, base + (4096 << (code - 1)));
        for end in [last, last - 3, first] {
            if !sweep.mii && end != last {
                continue;
            }
            let t = sweep.case(|_| ());
            t.reset();
            t.smar(base, code);
            t.smhr(end);
            t.set(CCR1, USE_SMI);
            let r = walking_registers(end % 61);
            let b = Boundary::new(1, 1);
            t.registers(&r, 0);
            t.boundary(&b, 11);
            read_header(t, end, &header_words(&r, &b, Entry::default()));
        }
    }
}

/// 01, "The steps": of EIP and the other registers that the header shows, an opcode with an operand
/// that is done makes EIP its next address; every other step, done or refused, leaves all of them.
pub fn header_steps(sweep: &mut Sweep) {
    const NEXT: u32 = 0x00C0_FFEE;
    let steps: [fn(&mut Trace); 15] = [
        |t| t.read(4, 0x300, Some(0)),
        |t| t.read(4, 0x20000, None),
        |t| t.write(4, 0x300, 0, 0),
        |t| t.write(4, 0x20000, 0, 5),
        |t| t.input(0x80, None),
        |t| t.output(0x80, 0, 7),
        |t| t.holds(CCR1, USE_SMI | SMAC),
        |t| t.set(SMAR[2], 0x81),
        |t| t.smi(false, 8),
        |t| t.smi(true, 9),
        |t| t.boundary(&Boundary::new(2, 0), 2),
        |t| {
            t.halt(0);
            t.wake();
            t.wake();
        },
        |t| t.rsm(4),
        |t| t.opcode(SVDC, 0xDD, 0x200, NEXT, 4),
        |t| t.opcode(SVDC, 0x1D, 0x20000, NEXT, 5),
    ];
    let opcodes = operand_opcodes(sweep.mii);
    for number in 0..steps.len() + opcodes.len() {
        let t = sweep.case(|_| ());
        t.reset();
        t.enabled(0);
        t.write(4, 0x100, header_end(t.mii), 0);
        t.set(CCR1, USE_SMI | SMAC);
        let mut r = walking_registers(number as u32 + 3);
        r.level = 0;
        t.registers(&r, 0);
        if let Some(step) = steps.get(number) {
            step(t);
        } else {
            let byte = opcodes[number - steps.len()];
            let address = if byte == WRSHR { 0x100 } else { 0x200 };
            t.opcode(byte, plain_modrm(byte), address, NEXT, 0);
            r.eip = NEXT;
        }
        t.set(CCR1, USE_SMI);
        let b = Boundary::new(1, 0);
        t.boundary(&b, 11);
        read_header(
            t,
            header_end(t.mii),
            &header_words(&r, &b, Entry::default()),
        );
    }
}

/// 01, after the header's table, and 02, request 7: RSM loads each bit of the words that it loads and of
/// no other, as the next entry's header shows; MMAC makes no difference. In the MII edition with
/// SMM_MODE 1, where RSM sets N, bit 15 of the word -24h keeps it inside.
pub fn resume(sweep: &mut Sweep) {
    for ccr6 in [0, SMM_MODE]
        .into_iter()
        .take(if sweep.mii { 2 } else { 1 })
    {
        let t = sweep.fresh();
        t.enabled(ccr6);
        t.smi(true, 11);
        for k in 0..if ccr6 == 0 { 64 } else { 32 } {
            let words: [u32; 12] = std::array::from_fn(|place| walking(k, 5 * place as u32));
            for (place, word) in words.iter().enumerate() {
                t.write(4, header_end(t.mii) - 48 + 4 * place as u32, *word, 0);
            }
            t.set(CCR1, USE_SMI | MMAC);
            t.rsm(12);
            let r = Registers {
                dr7: words[11],
                eflags: words[10],
                cr0: words[9],
                eip: words[7],
                selector: words[6] as u16,
                level: (words[6] >> 21 & 3) as u8,
                descriptor: u64::from(words[5]) << 32 | u64::from(words[4]),
                writable: (words[3] & 1) as u8,
            };
            let mut b = Boundary::new(1, 0);
            b.current = walking(k, 2);
            t.boundary(&b, 11);
            t.set(CCR1, USE_SMI);
            let mut entry = Entry::default();
            entry.nested = ccr6 == SMM_MODE && bit(words[3], 15);
            read_header(t, header_end(t.mii), &header_words(&r, &b, entry));
        }
    }
}

/// 01, "Entry then sets": CS by each bit of the base, which SVDC shows.
pub fn entry_segment(sweep: &mut Sweep) {
    for k in (12..32).chain(44..64) {
        let base = walking(k, 0) & 0xFFFF_F000;
        let t = sweep.case(|_| ());
        t.reset();
        t.smar(base, 1);
        t.smhr(base | 0xFFF);
        t.set(CCR1, USE_SMI);
        t.smi(true, 11);
        t.opcode(SVDC, 1 << 3, 0xE000, 0, 0);
        let [b0, b1, b2, b3] = base.to_le_bytes();
        t.read(4, 0xE000, Some(u32::from_le_bytes([0xFF, 0xFF, b0, b1])));
        t.read(4, 0xE004, Some(u32::from_le_bytes([b2, 0x93, 0x8F, b3])));
        t.read(2, 0xE008, Some((base >> 12 & 0xFF) << 8));
    }
}

/// The same, and 02, request 7: an inner entry's header shows what the entry before it has set, CR0 by
/// each of its bits.
pub fn entry_registers(sweep: &mut Sweep) {
    if !sweep.mii {
        return;
    }
    let t = sweep.fresh();
    t.enabled(SMM_MODE);
    for k in 0..64 {
        let before = walking_registers(k);
        let mut entry = Entry::default();
        let mut b = Boundary::new(1, 0);
        (entry.nested, entry.halted, b.current) = (true, odd(k), walking(k, 3));
        t.registers(&before, 0);
        t.smi(true, 11);
        t.set(CCR6, SMM_MODE | N);
        if entry.halted {
            t.halt(0);
        }
        t.boundary(&b, 11);
        let set = Registers {
            eip: 0,
            eflags: 2,
            cr0: before.cr0 & !(1 << 0 | 1 << 2 | 1 << 3 | 1 << 31),
            dr7: 0x400,
            selector: 0x0800,
            descriptor: 0x008F_9300_8000_FFFF, // FF FF 00 80 00 93 8F 00
            level: 0,
            writable: 1,
        };
        read_header(t, header_end(t.mii), &header_words(&set, &b, entry));
        t.set(CCR6, 0); // so that RSM leaves the mode
        t.rsm(12);
        t.set(CCR6, SMM_MODE);
    }
}

/// 01, "Reset": from whatever state, configuration, flags and index are zero, the index not armed, and
/// the registers as listed, which an entry shows. No memory byte changes.
pub fn reset(sweep: &mut Sweep) {
    for k in 0..8 {
        let s = State {
            inside: bit(k, 0),
            latch: bit(k, 1),
            lock: bit(k, 2),
            smm_mode: sweep.mii,
            n: sweep.mii,
            ..OUTSIDE
        };
        let t = sweep.case(|_| ());
        s.arrive(t);
        t.write(4, 0x8100, 0x1234_5600 + k, 0);
        t.write(4, 0x100, 0x7654_3200 + k, 0);
        t.registers(&walking_registers(k), 0);
        t.output(0x22, CCR1, 0);
        if odd(k) {
            t.halt(0);
        }
        t.reset();
        t.input(0x23, None);
        for index in named_indexes(t.mii) {
            if *index == CCR6 {
                t.set(CCR3, MAPEN);
            }
            t.holds(*index, 0);
        }
        t.enabled(0);
        t.smi(false, 8); // outside, and no latch
        t.smi(true, 11);
        let listed = Registers {
            eip: 0xFFF0,
            eflags: 2,
            cr0: 0x6000_0010,
            dr7: 0x400,
            selector: 0xF000,
            descriptor: 0xFF00_93FF_0000_FFFF, // FF FF 00 00 FF 93 00 FF
            level: 0,
            writable: 1,
        };
        let words = header_words(&listed, &Boundary::new(1, 0), Entry::default());
        read_header(t, header_end(t.mii), &words);
        t.read(4, 0x8100, Some(0x1234_5600 + k));
        t.read(4, 0x100, Some(0x7654_3200 + k));
    }
}
