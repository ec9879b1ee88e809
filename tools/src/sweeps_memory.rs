//! Sweeps of the region, of routing, and of operands and data at the edges of the memories.

use crate::sweep::{Sweep, Trace};
use crate::sweep_states::*;

/// 01, "Region": which codes and bases are usable, and which byte of management memory answers. Where
/// a and k are the first or the last byte of 4 KiB, byte a of main memory holds 80h + a / 2048 and byte
/// k of management memory 40h + k / 2048.
pub fn region(sweep: &mut Sweep) {
    fn marked(t: &mut Trace, inside: bool) {
        t.smar(0x30000, 5);
        t.smhr(0x40000);
        t.set(CCR1, USE_SMI | SMAC);
        if inside {
            t.smint(11);
        }
        for k in 0..32 {
            let a = k / 2 * 4096 + k % 2 * 4095;
            t.write(1, 0x30000 + a, 0x40 + k, 0);
            t.write(1, a, 0x80 + k, 0);
        }
    }
    for inside in [false, true] {
        let t = sweep.fresh();
        marked(t, inside);
        for code in (0..=15u8).filter(|code| !inside || !(7..=14).contains(code)) {
            let size = match code {
                0 => 4096, // none: looked at as if it were 4 KiB
                15 => 1 << 32,
                n => 4096u64 << (n - 1),
            };
            // Multiples of the size, and of every smaller power of two but not of the size.
            let smaller = (12..32)
                .map(|place| 1 << place)
                .filter(|power| *power < size);
            let twice = smaller
                .clone()
                .filter(|_| code <= 5)
                .map(|power| size + power);
            let aligned = [0, size, 5 * size, (1 << 32) - size];
            let mut bases: Vec<u64> = aligned.into_iter().chain(smaller).chain(twice).collect();
            bases.retain(|base| *base < 1 << 32);
            bases.sort();
            bases.dedup();
            for base in bases {
                let usable = (1..=5).contains(&code) && base % size == 0;
                let end = base + size;
                t.smar(base as u32, code);
                t.operand(SVDC, 0x100, if usable { 0 } else { 4 });
                for a in [base.wrapping_sub(1), base, base + size / 2, end - 1, end] {
                    if a >= 1 << 32 || (a + 1) % 4096 > 1 {
                        continue;
                    }
                    let value = if usable && (base..end).contains(&a) {
                        Some(0x40 + (a - base) as u32 / 2048)
                    } else {
                        (a < MAIN_END).then_some(0x80 + a as u32 / 2048)
                    };
                    let a = a as u32;
                    t.read(1, a, value);
                    match value {
                        _ if inside => (),
                        Some(value) => {
                            t.write(1, a, value ^ 0x20, 0);
                            t.read(1, a, Some(value ^ 0x20));
                            t.write(1, a, value, 0);
                        }
                        None => t.write(1, a, 0, 5),
                    }
                }
            }
        }
    }
}

/// The words at 8000h in main memory and in management memory.
fn word_of(routed: bool) -> u32 {
    if routed {
        0x5152_5354
    } else {
        0x0A0B_0C0D
    }
}

fn two_words(t: &mut Trace) {
    t.write(4, 0x8000, word_of(false), 0);
    OUTSIDE.arrive(t);
    t.write(4, 0x8000, word_of(true), 0);
}

/// 01, "Routing, byte by byte": the region, USE_SMI, and SMAC outside or MMAC inside decide, and
/// nothing else does. A write is undone by another one: had the two gone to the other memory, its word
/// would be seen to differ.
pub fn routing(sweep: &mut Sweep) {
    for k in 0..if sweep.mii { 32 } else { 8 } {
        let t = sweep.case(two_words);
        for ccr1 in 0..8 {
            let s = State {
                inside: bit(k, 0),
                latch: bit(k, 1),
                lock: bit(k, 2),
                smm_mode: bit(k, 3),
                n: bit(k, 4),
                use_smi: bit(ccr1, 0),
                smac: bit(ccr1, 1),
                mmac: bit(ccr1, 2),
                ccr3: [MAPEN, NMI_EN, MAPEN | NMI_EN, 0xF0][(k + k / 4 + ccr1) as usize % 4],
                ..OUTSIDE
            };
            if ccr1 == 0 || s.lock && !s.inside {
                s.arrive(t);
            } else {
                s.settle(t);
            }
            let word = word_of(s.routed());
            // With the other bits of CCR1 clear, and then set and the index armed.
            t.group(2, |t, _| {
                for level in 0..=3 {
                    t.level(level, odd(k + ccr1) == (level % 2 == 0));
                    t.read(4, 0x8000, Some(word));
                }
                t.set(CCR1, s.ccr1() | 0xF1);
                t.output(0x22, CCR1, 0);
            });
            t.write(4, 0x8000, k, 0);
            t.read(4, 0x8000, Some(k));
            t.write(4, 0x8000, word, 0);
        }
    }
}

/// The same, for each bit alone: all values of CCR1, of which bits 1 to 3 count; and single bits of
/// CCR3 and CCR6, which don't.
pub fn routing_bits(sweep: &mut Sweep) {
    for inside in [false, true] {
        let t = sweep.fresh();
        two_words(t);
        if inside {
            t.smint(11);
        }
        for ccr1 in 0..=0xFFu8 {
            let s = State {
                inside,
                use_smi: ccr1 & USE_SMI != 0,
                smac: ccr1 & SMAC != 0,
                mmac: ccr1 & MMAC != 0,
                ..OUTSIDE
            };
            let word = Some(word_of(s.routed()));
            t.set(CCR1, ccr1);
            t.read(4, 0x8000, word);
            for place in (1..8).filter(|_| ccr1 < 16 && ccr1 % 2 == 0) {
                let value = 1 << place;
                if t.mii {
                    t.set(CCR3, MAPEN);
                    t.set(CCR6, value | value >> 7);
                    t.read(4, 0x8000, word);
                }
                t.set(CCR3, value);
                t.read(4, 0x8000, word);
            }
        }
    }
}

/// The 32 bytes around an edge, of which some are absent.
struct Around {
    base: u64,
    edge: u64,
    bytes: [u8; 32],
}

impl Around {
    fn in_region(&self, a: u64) -> bool {
        (self.base..self.base + 4096).contains(&a)
    }

    /// 01, "Routing" and answer 5: a byte is there if its address is in the region or below main
    /// memory's end.
    fn there(&self, a: u64, size: usize) -> bool {
        (a..a + size as u64).all(|a| self.in_region(a) || a < MAIN_END)
    }

    fn at(&mut self, a: u64, size: usize) -> &mut [u8] {
        &mut self.bytes[(a + 16 - self.edge) as usize..][..size]
    }

    fn word(&mut self, a: u64) -> u32 {
        u32::from_le_bytes(self.at(a, 4).try_into().expect("4 bytes"))
    }

    /// The aligned words that are there whole.
    fn words(&self) -> Vec<u64> {
        let words = (0..8).map(|k| self.edge - 16 + 4 * k);
        words.filter(|a| self.there(*a, 4)).collect()
    }

    /// Where an access of this size is tried: from one byte before the last place ahead of the edge to
    /// one byte behind the edge.
    fn starts(&self, size: usize) -> impl Iterator<Item = u64> {
        let start = self.edge - size as u64 - 1;
        (start..self.edge + 2).filter(|a| *a < 1 << 32)
    }

    /// Reads the words that an access of this size has met.
    fn read(&mut self, t: &mut Trace, start: u64, size: usize) {
        let met = |a: &u64| a + 4 > start && *a < start + size as u64;
        for a in self.words().into_iter().filter(met) {
            t.read(4, a as u32, Some(self.word(a)));
        }
    }
}

/// 01, "Opcode", "Data read or write" and answer 5: operands and data at every place around an edge of
/// a memory are stored or loaded whole, or refused, and nothing has changed. The region is 4 KiB, and
/// the window is open.
pub fn operands(sweep: &mut Sweep) {
    for (state, base, edge) in [
        (OUTSIDE, 0x20000, MAIN_END),
        (OUTSIDE, 0x20000, 0x20000),
        (OUTSIDE, 0x20000, 0x21000),
        (INSIDE, 0x20000, 0x21000),
        (OUTSIDE, 0x10000, MAIN_END), // the region begins there
        (OUTSIDE, 0xF000, MAIN_END),  // it ends there
        (OUTSIDE, 0x8000, 0x8000),
        (INSIDE, 0x8000, 0x9000),
        (OUTSIDE, 0xFFFF_F000, 1 << 32),
    ] {
        let opcodes = operand_opcodes(sweep.mii);
        let t = sweep.case(|_| ());
        let bytes = [0xEE; 32];
        let mut around = Around { base, edge, bytes };
        let mut in_main = around.words();
        in_main.retain(|a| *a < MAIN_END);
        state.arrive(t);
        t.set(CCR1, 0);
        for a in &in_main {
            t.write(4, *a as u32, 0xEEEE_EEEE, 0);
        }
        t.set(CCR1, USE_SMI | SMAC);
        t.smar(base as u32, 1);
        for a in around.words() {
            t.write(4, a as u32, 0xEEEE_EEEE, 0);
        }
        // DS, LDTR and TR get 10h to 19h, 20h to 29h and 30h to 39h, and SMHR 40h to 43h.
        let mut held: Vec<Vec<u8>> = Vec::new();
        for (number, byte) in opcodes.iter().skip(1).step_by(2).enumerate() {
            let size = if *byte == WRSHR { 4 } else { 10 };
            let first = 0x10 * (number as u8 + 1);
            for place in 0..size {
                t.write(1, 0xE000 + u32::from(place), u32::from(first + place), 0);
            }
            t.operand(*byte, 0xE000, 0);
            held.push((first..first + size).collect());
        }
        for (number, byte) in opcodes.iter().step_by(2).enumerate() {
            let size = held[number].len();
            for start in around.starts(size) {
                let done = around.there(start, size);
                t.operand(*byte, start as u32, if done { 0 } else { 5 });
                if done {
                    around.at(start, size).copy_from_slice(&held[number]);
                }
                around.read(t, start, size);
            }
        }
        for width in [1, 2, 4] {
            for start in around.starts(width) {
                let done = around.there(start, width);
                let value = 0xD4D3_D2D1 ^ start as u32;
                t.write(width as u8, start as u32, value, if done { 0 } else { 5 });
                if done {
                    let low = &value.to_le_bytes()[..width];
                    around.at(start, width).copy_from_slice(low);
                }
                around.read(t, start, width);
                let low = value & u32::MAX >> (32 - 8 * width);
                t.read(width as u8, start as u32, done.then_some(low));
            }
        }
        // Loads: what is held then is stored at E100h and read.
        for (number, a) in around.words().into_iter().enumerate() {
            let value = 0x5352_5150 + 0x0404_0404 * number as u32;
            around.at(a, 4).copy_from_slice(&value.to_le_bytes());
            t.write(4, a as u32, value, 0);
        }
        for (number, byte) in opcodes.iter().skip(1).step_by(2).enumerate() {
            let size = held[number].len();
            for start in around.starts(size) {
                let done = around.there(start, size);
                t.operand(*byte, start as u32, if done { 0 } else { 5 });
                if done {
                    held[number] = around.at(start, size).to_vec();
                }
                t.operand(byte - 1, 0xE100, 0);
                for (place, part) in held[number].chunks(4).enumerate() {
                    let bytes = part.iter().rev().map(|byte| u32::from(*byte));
                    let value = bytes.fold(0, |value, byte| value << 8 | byte);
                    t.read(part.len() as u8, 0xE100 + 4 * place as u32, Some(value));
                }
            }
        }
        // Main memory alone: under the region it has what it had.
        t.set(CCR1, 0);
        for a in in_main {
            let covered = around.in_region(a);
            let value = if covered { 0xEEEE_EEEE } else { around.word(a) };
            t.read(4, a as u32, Some(value));
        }
    }
}
