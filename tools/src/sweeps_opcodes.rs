//! Sweeps of the opcodes: which bytes, ModRMs and states make them valid.

use crate::sweep::{Boundary, Registers, Sweep, Trace};
use crate::sweep_states::*;

/// 01, "Opcode", and 02, request 1: a memory operand, and a middle field that the opcode has.
fn takes(mii: bool, byte: u8, modrm: u8) -> bool {
    let (mode, middle) = (modrm >> 6, modrm >> 3 & 7);
    mode != 3
        && match byte {
            0x78 => middle <= 5,
            0x79 => middle <= 5 && middle != 1,
            0x7A..=0x7D => middle == 0,
            0x36 | 0x37 => mii && middle == 0,
            _ => false,
        }
}

/// Each opcode has an operand of its own there.
fn operand_of(byte: u8) -> u32 {
    0x1000 + 0x10 * u32::from(byte)
}

/// Plays records outside under SMAC 1, and the same ones again inside, at this level. They may not
/// enter or leave the mode. The operand of WRSHR holds SMHR.
fn in_both_modes(t: &mut Trace, level: u8, mut each: impl FnMut(&mut Trace)) {
    t.write(4, operand_of(WRSHR), 0x9000, 0);
    OUTSIDE.arrive(t);
    t.level(level, false);
    t.group(2, |t, turn| {
        each(t);
        t.level(0, false);
        t.smint(if turn == 0 { 11 } else { 4 });
        t.level(level, true);
    });
}

/// The same: all bytes but SMINT and RSM, valid at level 0 if they take the ModRM, and at level 3 never.
/// All mods come with all middle fields at level 0 in the 486 edition, and beside the named opcodes in
/// the MII edition, where elsewhere each field has one mod. At level 3 it has one too, and each edition
/// has one half of the fields where no named opcode is near.
pub fn opcodes(sweep: &mut Sweep) {
    let mii = sweep.mii;
    for (level, bytes) in [(0, 0..=0x7F), (0, 0x80..=0xFF), (3, 0..=0xFF)] {
        in_both_modes(sweep.fresh(), level, |t| {
            for byte in bytes.clone() {
                if [smint(mii), RSM].contains(&byte) {
                    continue;
                }
                let beside = matches!(byte, 0x30..=0x3F | 0x70..=0x7F | 0xA0..=0xAF);
                for pair in 0..32 {
                    let (mode, middle) = (pair / 8, pair % 8);
                    let turn = byte.wrapping_add(middle) % 4 == mode;
                    let half = middle % 2 == u8::from(mii);
                    let tried = match level {
                        0 => beside || turn || !mii,
                        _ => turn && (beside || half),
                    };
                    if tried {
                        let modrm = mode << 6 | middle << 3 | byte.wrapping_add(middle) % 8;
                        let done = level == 0 && takes(mii, byte, modrm);
                        let answer = if done { 0 } else { 4 };
                        t.opcode(byte, modrm, operand_of(byte), 0, answer);
                    }
                }
            }
        });
    }
}

/// The same: the opcodes with an operand with every ModRM at level 0, and with every middle field at
/// levels 1 to 3, where SMINT and RSM are invalid too; and these two with every ModRM.
pub fn named(sweep: &mut Sweep) {
    let mii = sweep.mii;
    for level in 0..=3 {
        in_both_modes(sweep.fresh(), level, |t| {
            for byte in operand_opcodes(mii) {
                for modrm in (0..=0xFF).filter(|m| level == 0 || m % 8 == 5 && m / 64 == level) {
                    let done = level == 0 && takes(mii, *byte, modrm);
                    let answer = if done { 0 } else { 4 };
                    t.opcode(*byte, modrm, operand_of(*byte), 0, answer);
                }
            }
            for modrm in (0..=0xFF).filter(|modrm| level != 0 && modrm % 8 == level) {
                t.opcode(smint(mii), modrm, 0, 0, 4);
                t.opcode(RSM, modrm, 0, 0, 4);
            }
        });
    }
    let t = sweep.fresh();
    OUTSIDE.arrive(t);
    for modrm in 0..=0xFF {
        t.opcode(RSM, modrm, 0, 0, 4); // outside
        t.opcode(smint(mii), modrm, 0, 0, 11);
        t.opcode(smint(mii), modrm, 0, 0, 4); // inside
        t.opcode(RSM, modrm, 0, 0, 12);
    }
}

/// 01, "Opcode", and 02, request 1: when the named opcodes are valid. Every state here can be reached.
pub fn validity(sweep: &mut Sweep) {
    let mii = sweep.mii;
    for k in 0..if mii { 128 } else { 32 } {
        let s = State {
            inside: bit(k, 0),
            use_smi: bit(k, 1),
            smac: bit(k, 2),
            usable: bit(k, 3),
            lock: bit(k, 4),
            fits: !bit(k, 5),
            smm_mode: bit(k, 6),
            latch: odd(k),
            mmac: odd(k & 0x33),
            n: mii && odd(k & 0x55),
            ..OUTSIDE
        };
        let t = sweep.case(|t| {
            t.write(4, 0x100, 0x9000, 0);
            t.write(4, 0x110, 0x9001, 0);
        });
        s.arrive(t);
        let smhr = if s.fits { 0x100 } else { 0x110 };
        for level in [1, 2, 3, 0] {
            t.level(level, odd(k ^ u32::from(level)));
            // Where level 0 is invalid too, each opcode is tried at one of the others.
            for (number, byte) in operand_opcodes(mii).iter().enumerate() {
                if level != 0 && !s.valid(0) && (number as u32 + k) % 3 + 1 != u32::from(level) {
                    continue;
                }
                let held = *byte == WRSHR && s.lock && !s.inside;
                let address = if *byte == WRSHR {
                    smhr
                } else {
                    operand_of(*byte)
                };
                t.operand(*byte, address, if s.valid(level) && !held { 0 } else { 4 });
            }
            if level != 0 {
                t.smint(4);
                t.rsm(4);
            }
        }
        // At level 0, which the header has too: RSM, SMINT, RSM, from inside or from outside.
        let leaves = s.inside && s.valid(0) && s.fits;
        t.rsm(if leaves { 12 } else { 4 });
        let inside = s.inside && !leaves;
        let enters = !inside && State { inside, ..s }.valid(0) && s.fits;
        t.smint(if enters { 11 } else { 4 });
        t.rsm(if enters { 12 } else { 4 });
    }
}

/// 01, "Opcode" and "Reset": the segment registers hold what reset or a load gave them, each its own
/// descriptor and selector.
pub fn segments(sweep: &mut Sweep) {
    // ES, CS, SS, DS, FS, GS, LDTR, TR: the opcode that stores it, and the ModRM.
    let stores = |k: u8| match k {
        6 => (0x7A, 5),
        7 => (0x7C, 5),
        _ => (SVDC, k << 3 | 5),
    };
    let t = sweep.fresh();
    OUTSIDE.arrive(t);
    let data = [0x0000_FFFF, 0x0000_9300, 0];
    let mut held = [data; 8];
    held[1] = [0x0000_FFFF, 0xFF00_93FF, 0xF000];
    (held[6], held[7]) = ([0; 3], [0; 3]);
    for turn in 0..24 {
        for k in 0..8 {
            let (byte, modrm) = stores(k);
            t.opcode(byte, modrm, 0xE000, 0, 0);
            for (place, width) in [4, 4, 2].into_iter().enumerate() {
                let address = 0xE000 + 4 * place as u32;
                t.read(width, address, Some(held[usize::from(k)][place]));
            }
        }
        let loaded = turn % 8;
        if loaded == 1 {
            continue; // CS has no load
        }
        let number = 0x0101_0101 * u32::from(turn + 1);
        let value = [number << 3, !number, number & 0xFFFF];
        for (place, word) in value.into_iter().enumerate() {
            t.write(4, 0xE010 + 4 * place as u32, word, 0);
        }
        let (byte, modrm) = stores(loaded);
        t.opcode(byte + 1, modrm, 0xE010, 0, 0);
        held[usize::from(loaded)] = value;
    }
}

/// 01, "Numbers the bench sees": a halted machine's program steps are 3, and malformed ones 2 before
/// that. A boundary without interruption and wake are no program steps.
pub fn halted(sweep: &mut Sweep) {
    for state in [OUTSIDE, INSIDE] {
        let t = sweep.case(|_| ());
        state.arrive(t);
        t.halt(0);
        for byte in 0..=0xFF {
            t.opcode(byte, plain_modrm(byte), operand_of(byte), 0, 3);
        }
        for port in [0x22, 0x23, 0x80] {
            t.input_answer(port, 3, None);
            t.output(port, CCR1, 3);
        }
        for width in 0..=8 {
            let answer = if matches!(width, 1 | 2 | 4) { 3 } else { 2 };
            t.read_answer(width, 0x8000, answer, None);
            t.write(width, 0x20000, 0, answer); // absent, but that is 5
        }
        for level in 0..=5 {
            let mut r = Registers::default();
            r.level = level;
            t.registers(&r, if level <= 3 { 3 } else { 2 });
        }
        for interruption in 0..=8 {
            let answer = if interruption == 0 { 8 } else { 2 };
            t.boundary(&Boundary::new(0, interruption), answer);
        }
        t.halt(3);
        t.smi(true, if state.inside { 10 } else { 9 });
        t.halt(3);
        t.wake();
        t.wake();
        t.halt(0);
    }
}
