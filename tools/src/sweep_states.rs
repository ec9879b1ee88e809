//! What the sweeps set up, and the rules of 01 and 02 about it that more than one of them uses.

use crate::sweep::{Boundary, Registers, Trace};

pub const MAIN_END: u64 = 65_536;

pub const CCR1: u8 = 0xC1;
pub const USE_SMI: u8 = 0x02;
pub const SMAC: u8 = 0x04;
pub const MMAC: u8 = 0x08;
pub const CCR3: u8 = 0xC3;
pub const SMI_LOCK: u8 = 0x01;
pub const NMI_EN: u8 = 0x02;
/// CCR3 bits 7-4 at 0001b.
pub const MAPEN: u8 = 0x10;
pub const SMAR: [u8; 3] = [0xCD, 0xCE, 0xCF];
pub const SMHR: [u8; 4] = [0xB0, 0xB1, 0xB2, 0xB3];
pub const CCR6: u8 = 0xEA;
pub const SMM_MODE: u8 = 0x01;
pub const N: u8 = 0x40;

pub const SVDC: u8 = 0x78;
pub const RSDC: u8 = 0x79;
pub const RDSHR: u8 = 0x36;
pub const WRSHR: u8 = 0x37;
pub const RSM: u8 = 0xAA;

pub fn smint(mii: bool) -> u8 {
    if mii {
        0x38
    } else {
        0x7E
    }
}

/// The opcodes with an operand: those that store, in even numbers, and those that load.
pub fn operand_opcodes(mii: bool) -> &'static [u8] {
    const OPCODES: [u8; 8] = [SVDC, RSDC, 0x7A, 0x7B, 0x7C, 0x7D, RDSHR, WRSHR];
    &OPCODES[..if mii { 8 } else { 6 }]
}

/// ModRM with mod 0 and a middle field: DS for SVDC and RSDC, and else 0.
pub fn plain_modrm(byte: u8) -> u8 {
    match byte {
        SVDC | RSDC => 3 << 3 | 5,
        _ => 5,
    }
}

/// The configuration bytes that are stored.
pub fn named_indexes(mii: bool) -> &'static [u8] {
    const INDEXES: [u8; 10] = [0xC1, 0xC3, 0xCD, 0xCE, 0xCF, 0xEA, 0xB0, 0xB1, 0xB2, 0xB3];
    &INDEXES[..if mii { 10 } else { 5 }]
}

pub fn bit(number: u32, place: u32) -> bool {
    number >> place & 1 == 1
}

/// Whether an odd number of bits is set: what is varied so has both values with every choice of all
/// but one of these bits.
pub fn odd(number: u32) -> bool {
    number.count_ones() % 2 == 1
}

/// Where the header of most sweeps ends: with the region, or in the MII edition at SMHR.
pub fn header_end(mii: bool) -> u32 {
    if mii {
        0x8803
    } else {
        0x9000
    }
}

impl Trace {
    pub fn smar(&mut self, base: u32, code: u8) {
        let [_, low, middle, high] = base.to_le_bytes();
        for (index, value) in SMAR.into_iter().zip([high, middle, low | code]) {
            self.set(index, value);
        }
    }

    /// SMHR in the MII edition, with MAPEN set on the way; in the 486 edition nothing.
    pub fn smhr(&mut self, end: u32) {
        if self.mii {
            self.set(CCR3, MAPEN);
            for (index, value) in SMHR.into_iter().zip(end.to_le_bytes()) {
                self.set(index, value);
            }
        }
    }

    /// From reset to SMIs enabled outside, with the header there.
    pub fn enabled(&mut self, ccr6: u8) {
        self.smar(0x8000, 1);
        self.smhr(header_end(self.mii));
        if self.mii {
            self.set(CCR6, ccr6);
        }
        self.set(CCR1, USE_SMI);
    }

    /// Sets the level, with all bits of EFLAGS and CR0 on or off, paging and IF among them.
    pub fn level(&mut self, level: u8, on: bool) {
        let mut r = Registers::default();
        r.level = level;
        (r.eflags, r.cr0) = if on { (u32::MAX, u32::MAX) } else { (0, 0) };
        self.registers(&r, 0);
    }

    /// An opcode with an operand in memory, done or refused.
    pub fn operand(&mut self, byte: u8, address: u32, answer: u32) {
        self.opcode(byte, plain_modrm(byte), address, 0, answer);
    }

    pub fn smint(&mut self, answer: u32) {
        self.opcode(smint(self.mii), 0, 0, 0, answer);
    }

    pub fn rsm(&mut self, answer: u32) {
        self.opcode(RSM, 0, 0, 0, answer);
    }

    /// A boundary without interruption.
    pub fn smi(&mut self, asserted: bool, answer: u32) {
        self.boundary(&Boundary::new(asserted.into(), 0), answer);
    }
}

/// A state of the machine. The region is 4 KiB at 8000h, or 64 KiB there, which is not usable; SMHR is
/// 9000h, or 9001h, where the header doesn't fit. In the 486 edition it always fits, and there are no
/// SMM_MODE and N.
#[derive(Clone, Copy)]
pub struct State {
    pub inside: bool,
    pub latch: bool,
    pub lock: bool,
    pub use_smi: bool,
    pub smac: bool,
    pub mmac: bool,
    pub usable: bool,
    pub fits: bool,
    pub smm_mode: bool,
    pub n: bool,
    /// The bits of CCR3 but the lock.
    pub ccr3: u8,
}

/// Outside, the window open.
pub const OUTSIDE: State = State {
    inside: false,
    latch: false,
    lock: false,
    use_smi: true,
    smac: true,
    mmac: false,
    usable: true,
    fits: true,
    smm_mode: false,
    n: false,
    ccr3: MAPEN,
};

pub const INSIDE: State = State {
    inside: true,
    ..OUTSIDE
};

impl State {
    pub fn ccr1(&self) -> u8 {
        let bits = [
            (self.use_smi, USE_SMI),
            (self.smac, SMAC),
            (self.mmac, MMAC),
        ];
        bits.map(|(on, bit)| u8::from(on) * bit).iter().sum()
    }

    pub fn ccr6(&self) -> u8 {
        u8::from(self.smm_mode) * SMM_MODE + u8::from(self.n) * N
    }

    /// From reset to this state, at level 0. A latch is set inside, where no SMI is taken with SMAC 1.
    pub fn arrive(&self, t: &mut Trace) {
        t.reset();
        t.set(SMAR[2], 0x81);
        if t.mii {
            t.set(CCR3, MAPEN);
            t.set(SMHR[1], 0x90);
        }
        if self.inside || self.latch {
            t.set(CCR1, USE_SMI | SMAC);
            t.smint(11);
        }
        if self.latch {
            t.smi(true, 10);
        }
        if self.latch && !self.inside {
            t.rsm(12);
        }
        if !self.usable {
            t.set(SMAR[2], 0x85);
        }
        if !self.fits {
            t.set(SMHR[0], 0x01);
        }
        if self.ccr6() != 0 {
            t.set(CCR6, self.ccr6());
        }
        self.settle(t);
    }

    /// The last two settings; where the lock doesn't hold them, they make another state of one that
    /// differs in these alone.
    pub fn settle(&self, t: &mut Trace) {
        t.set(CCR1, self.ccr1());
        t.set(CCR3, self.ccr3 | u8::from(self.lock));
    }

    /// 01, "Routing, byte by byte": whether the region's bytes go to management memory.
    pub fn routed(&self) -> bool {
        self.usable && self.use_smi && if self.inside { !self.mmac } else { self.smac }
    }

    /// 01, "Opcode": what all of them need.
    pub fn valid(&self, level: u8) -> bool {
        self.use_smi && self.usable && level == 0 && (self.inside || self.smac)
    }

    /// 01, "Boundary", and 02, request 1: whether SMIs are enabled.
    pub fn enabled(&self) -> bool {
        self.use_smi && !self.smac && self.usable && self.fits
    }
}
