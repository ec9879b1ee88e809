//! Sweeps of boundaries: which are well formed, and what they answer.

use crate::sweep::{Boundary, Registers, Sweep, Trace};
use crate::sweep_states::*;

/// 01, answer 2, and 02, request 5: which boundary records are well formed.
fn well_formed(b: &Boundary) -> bool {
    let sized = if b.is_output() {
        matches!(b.size, 1 | 2 | 4)
    } else {
        b.port == 0 && b.size == 0 && b.data == 0
    };
    b.smi <= 1 && b.interruption <= 6 && sized && (b.is_string() || b.index == 0)
}

/// The same, first from reset, where SMIs are not enabled, and those with SMI asserted where they are.
/// Then 01, answer 2, of the other records: widths, levels and yes/no values.
pub fn malformed(sweep: &mut Sweep) {
    let mut all = Vec::new();
    for number in 0..=0xFF {
        all.push(Boundary::new(number, 0));
        all.push(Boundary::new(1, number));
        all.push(Boundary::new(0, number));
        // Every size of the three outputs, in one edition of all three.
        let outputs = if sweep.mii { [2, 2, 2] } else { [2, 4, 6] };
        for interruption in (0..=6).filter(|i| outputs.contains(i) || number <= 5 || number == 255)
        {
            let mut b = Boundary::new(1, interruption);
            b.size = number;
            all.push(b);
        }
    }
    for interruption in 0..=6 {
        for place in 0..32 {
            let mut b = [Boundary::new(0, interruption); 3];
            b[0].data = 1 << place;
            b[1].index = 1 << place;
            b[2].port = 1 << (place % 16);
            b[2].current = 1 << place;
            all.extend(b);
        }
    }
    let t = sweep.fresh();
    for b in &all {
        let passed = if b.smi == 1 { 9 } else { 8 };
        t.boundary(b, if well_formed(b) { passed } else { 2 });
    }
    let t = sweep.fresh();
    t.enabled(0);
    for b in all.iter().filter(|b| b.smi == 1) {
        t.boundary(b, if well_formed(b) { 11 } else { 2 });
        if well_formed(b) {
            t.rsm(12);
        }
    }

    OUTSIDE.arrive(t);
    for width in 0..=0xFF {
        let taken = matches!(width, 1 | 2 | 4);
        t.read_answer(width, 0x100, if taken { 6 } else { 2 }, None);
        t.write(width, 0x100, 0, if taken { 0 } else { 2 });
        if width <= 8 {
            t.write(width, 0x20000, 0, if taken { 5 } else { 2 });
        }
    }
    // A refused registers step leaves the level, which SVDC needs to be 0.
    const NUMBERS: [u8; 9] = [0, 1, 2, 3, 4, 5, 8, 128, 255];
    for (level, writable) in NUMBERS.iter().flat_map(|l| NUMBERS.map(|w| (*l, w))) {
        let mut r = Registers::default();
        (r.level, r.writable) = (level, writable);
        let taken = level <= 3 && writable <= 1;
        t.level(0, false);
        t.registers(&r, if taken { 0 } else { 2 });
        t.operand(SVDC, 0x100, if taken && level != 0 { 4 } else { 0 });
    }
}

/// 01, "Boundary", and 02, requests 1 and 7: what a boundary answers, and what the latch and N are
/// then. Level, MMAC and lock are varied along, and don't count; so is N outside. The latch can't be
/// shown where the lock keeps the machine outside from making SMIs enabled.
pub fn boundaries(sweep: &mut Sweep) {
    for k in 0..if sweep.mii { 256 } else { 32 } {
        let s = State {
            inside: bit(k, 0),
            use_smi: bit(k, 1),
            smac: bit(k, 2),
            usable: bit(k, 3),
            latch: bit(k, 4),
            fits: !bit(k, 5),
            smm_mode: bit(k, 6),
            n: bit(k, 7),
            lock: odd(k),
            mmac: odd(k & 0x55),
            ..OUTSIDE
        };
        if !s.inside && s.n != (sweep.mii && odd(k & 0x7E)) {
            continue;
        }
        let taken = s.enabled() && (!s.inside || s.smm_mode && s.n);
        let t = sweep.case(|_| ());
        let mut arrived = false;
        for asserted in [false, true] {
            if !arrived {
                s.arrive(t);
                t.level((k + k / 16) as u8 % 4, odd(k));
            }
            let enters = taken && (asserted || s.latch);
            let answer = match (enters, asserted, s.inside) {
                (true, _, _) => 11,
                (false, false, _) => 8,
                (false, true, false) => 9,
                (false, true, true) => 10,
            };
            t.smi(asserted, answer);
            if !enters && !asserted {
                arrived = true; // nothing has changed
                continue;
            }
            if t.mii {
                let n = s.n && !(enters && s.smm_mode);
                t.holds(CCR6, State { n, ..s }.ccr6());
            }
            let inside = s.inside || enters;
            if inside || !s.lock {
                show_latch(t, &s, inside, !enters && (s.latch || s.inside));
            }
        }
    }
    // Entry by SMINT keeps the latch, and so does RSM.
    for latch in [false, true] {
        let s = State { latch, ..OUTSIDE };
        let t = sweep.case(|_| ());
        s.arrive(t);
        t.smint(11);
        t.rsm(12);
        show_latch(t, &s, false, latch);
    }
}

/// Shows by a boundary outside, with SMIs enabled, whether one is latched.
fn show_latch(t: &mut Trace, s: &State, inside: bool, latch: bool) {
    if s.smm_mode {
        t.set(CCR6, 0); // so that RSM leaves the mode
    }
    if !s.fits {
        t.set(SMHR[0], 0);
    }
    t.set(SMAR[2], 0x81);
    t.set(CCR1, USE_SMI);
    if inside {
        t.level(0, false);
        t.rsm(12);
    }
    t.smi(false, if latch { 11 } else { 8 });
}

/// 01, "Boundary" and "Opcode": all values of CCR1 outside, of which USE_SMI and SMAC count.
pub fn ccr1(sweep: &mut Sweep) {
    let t = sweep.fresh();
    OUTSIDE.arrive(t);
    for value in 0..=0xFF {
        let (use_smi, smac) = (value & USE_SMI != 0, value & SMAC != 0);
        t.set(CCR1, value);
        t.operand(SVDC, 0x100, if use_smi && smac { 0 } else { 4 });
        let enters = use_smi && !smac;
        t.smi(true, if enters { 11 } else { 9 });
        if enters {
            t.rsm(12);
        }
    }
}

/// 02, request 7: all values of CCR6 inside, of which SMM_MODE and N count. SMHR isn't moved, so that
/// RSM finds the inner header and stays inside; it sets N. And values outside, where SMINT clears N and
/// RSM sets it, with SMM_MODE 1.
pub fn ccr6(sweep: &mut Sweep) {
    if !sweep.mii {
        return;
    }
    let t = sweep.fresh();
    INSIDE.arrive(t);
    t.set(CCR1, USE_SMI);
    for value in 0..=0xFF {
        t.set(CCR6, value);
        let enters = value & SMM_MODE != 0 && value & N != 0;
        t.smi(true, if enters { 11 } else { 10 });
        if enters {
            t.holds(CCR6, value & !N);
            t.rsm(12);
            t.holds(CCR6, value | N);
        }
    }
    OUTSIDE.arrive(t);
    for value in [0, SMM_MODE, N, SMM_MODE | N, 0xBE, 0xBF, 0xFE, 0xFF] {
        let mode = value & SMM_MODE != 0;
        t.set(CCR6, value);
        t.smint(11);
        t.holds(CCR6, if mode { value & !N } else { value });
        t.rsm(12);
        t.holds(CCR6, if mode { value | N } else { value });
    }
}

/// 02, request 1: the header fits if the 48 bytes below SMHR all lie in the region; nothing wraps.
pub fn header_fits(sweep: &mut Sweep) {
    if !sweep.mii {
        return;
    }
    let t = sweep.fresh();
    for (base, code) in [
        (0x8000, 1),
        (0x68000, 3),
        (0x30000, 5),
        (0, 1),
        (0xFFFF_F000u32, 1),
    ] {
        let size = 4096u32 << (code - 1);
        let end = base.wrapping_add(size);
        let flips = (0..32).map(|place| end ^ 1 << place).filter(|_| code != 1);
        let near = [base, end].into_iter().flat_map(|edge| {
            [-49, -48, -47, -1, 0, 1, 47, 48, 49].map(|k| edge.wrapping_add_signed(k))
        });
        t.reset();
        t.smar(base, code);
        for smhr in near.chain([0, 1, 47, 48, u32::MAX]).chain(flips) {
            let (first, last) = (u64::from(base), u64::from(base) + u64::from(size));
            let fits = smhr >= 48 && first <= u64::from(smhr) - 48 && u64::from(smhr) <= last;
            t.set(CCR1, USE_SMI | SMAC);
            t.write(4, 0xE000, smhr, 0);
            t.operand(WRSHR, 0xE000, 0);
            t.smint(if fits { 11 } else { 4 });
            t.rsm(if fits { 12 } else { 4 });
            t.set(CCR1, USE_SMI);
            t.smi(true, if fits { 11 } else { 9 });
            t.rsm(if fits { 12 } else { 4 });
        }
    }
}
