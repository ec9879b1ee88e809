//! Sweeps of the ports, the configuration bytes and the lock.

use crate::sweep::{Sweep, Trace};
use crate::sweep_states::*;

/// 01, "Port read or write": ports other than 22h and 23h are external, and leave the index, its arming
/// and the bytes as they are. CCR1 holds E0h and CFh 81h.
pub fn ports(sweep: &mut Sweep) {
    fn two_bytes(t: &mut Trace) {
        t.set(CCR1, 0xE0);
        t.set(SMAR[2], 0x81);
        t.level(3, true);
    }
    let high = (2..=0xFF).flat_map(|high| [high << 8 | 0x22, high << 8 | 0x23]);
    let beside = [0x21FF, 0x2200, 0x2201, 0x22FF, 0x2300, 0x2301, 0x23FF];
    let others = (0..0x200).filter(|port| ![0x22, 0x23].contains(port));
    for port in others.chain(high).chain(beside) {
        let t = sweep.case(two_bytes);
        // Armed a read and a write, and not armed; in the MII edition one of them, and then the other.
        t.output(0x22, CCR1, 0);
        let (both, turn) = (!t.mii, odd(u32::from(port)));
        for (first, answer) in [(turn, Some(0xE0)), (!turn, None)] {
            if both || first {
                t.input(port, None);
            }
            if both || !first {
                t.output(port, SMAR[2], 7);
            }
            t.input(0x23, answer);
        }
    }
    // 22h and 23h themselves.
    let t = sweep.case(two_bytes);
    t.output(0x22, CCR1, 0);
    t.input(0x22, None);
    t.input(0x23, Some(0xE0));
    t.input(0x22, None);
    t.input(0x23, None);
    t.output(0x22, CCR1, 0);
    t.output(0x22, SMAR[2], 0);
    t.input(0x23, Some(0x81));
    t.set(CCR1, 0xE1);
    t.output(0x23, 0x77, 7);
    t.input(0x23, None);
    t.holds(CCR1, 0xE1);
    t.output(0x23, 0x77, 7);
    t.holds(CCR1, 0xE1);
}

/// 01, "Port read or write", and 02, request 1: which indexes are internal, and which of these are
/// stored. Every stored byte is set first, and then every other index is written.
pub fn indexes(sweep: &mut Sweep) {
    const SOME: [u8; 20] = [
        0x00, 0x01, 0x20, 0x22, 0x80, 0xAF, 0xB0, 0xB3, 0xB4, 0xBF, 0xC0, 0xC1, 0xCF, 0xD0, 0xDF,
        0xE8, 0xEA, 0xEB, 0xFD, 0xFE,
    ];
    let mii = sweep.mii;
    let all: Vec<u8> = (0..=0xFF).collect();
    let stored = named_indexes(mii);
    for (bits, level, inside) in (0..16).map(|k| (k, k * 3 % 4, k % 3 == 1)) {
        // No SMI_LOCK, and in CCR1 no USE_SMI; the upper half of CCR3 is what is tried.
        let value = |index: u8| match index {
            CCR1 => 0xF1,
            CCR3 => bits << 4 | 0x0A,
            _ => index ^ 0x5A,
        };
        let internal = |index| matches!(index, 0xC0..=0xCF | 0xFE | 0xFF) || mii && bits == 1;
        let t = sweep.case(|_| ());
        State { inside, ..OUTSIDE }.arrive(t);
        t.level(level, true);
        for index in stored.iter().filter(|index| **index != CCR3) {
            t.set(*index, value(*index));
        }
        t.set(CCR3, value(CCR3));
        for index in if bits <= 3 { &all[..] } else { &SOME } {
            match (internal(*index), stored.contains(index)) {
                (true, true) => t.holds(*index, value(*index)),
                (true, false) => {
                    t.set(*index, 0x77);
                    t.holds(*index, 0);
                }
                (false, _) => {
                    t.output(0x22, *index, 0);
                    t.output(0x23, 0x77, 7);
                    if bits <= 1 {
                        t.output(0x22, *index, 0);
                        t.input(0x23, None);
                    }
                }
            }
        }
        t.holds(CCR3, value(CCR3));
        t.set(CCR3, MAPEN);
        for index in stored.iter().filter(|index| **index != CCR3) {
            t.holds(*index, value(*index));
        }
    }
}

/// 01, "Lock", and 02, request 1: which bits a write leaves, where the lock was set before it or not.
fn kept(index: u8, locked: bool, inside: bool) -> u8 {
    match index {
        CCR3 if locked && inside => SMI_LOCK,
        _ if inside || !locked => 0,
        CCR1 => USE_SMI | SMAC | MMAC,
        CCR3 => SMI_LOCK | NMI_EN,
        CCR6 => SMM_MODE | N,
        _ => 0xFF, // SMAR, SMHR
    }
}

/// The same: each stored byte but CCR3 from zeros and from ones, each bit written alone, then all.
pub fn lock(sweep: &mut Sweep) {
    for k in 0..8 {
        let (inside, locked) = (bit(k, 0), bit(k, 1));
        let start = if bit(k, 2) { 0xFF } else { 0 };
        for index in named_indexes(sweep.mii)
            .iter()
            .filter(|index| **index != CCR3)
        {
            let kept = kept(*index, locked, inside);
            let t = sweep.case(|_| ());
            State { inside, ..OUTSIDE }.arrive(t);
            t.set(*index, start);
            t.set(CCR3, MAPEN | u8::from(locked));
            t.level(k as u8 % 4, false);
            for written in (0..8).map(|place| start ^ 1 << place).chain([!start]) {
                t.set(*index, written);
                t.holds(*index, start & kept | written & !kept);
            }
        }
    }
}

/// The same: CCR3 itself, from reset each time, as the lock never falls else.
pub fn lock_ccr3(sweep: &mut Sweep) {
    for k in 0..8 {
        let (inside, locked) = (bit(k, 0), bit(k, 1));
        let old = u8::from(locked) | if bit(k, 2) { 0xFE } else { 0 };
        let kept = kept(CCR3, locked, inside);
        for written in (0..8).map(|place| old ^ 1 << place).chain([0, 3, 0xFF]) {
            let t = sweep.case(|_| ());
            t.reset();
            if inside {
                INSIDE.arrive(t);
            }
            t.set(CCR3, old);
            t.set(CCR3, written);
            t.holds(CCR3, old & kept | written & !kept);
        }
    }
}
