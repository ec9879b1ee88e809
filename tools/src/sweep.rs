//! A sweep in the making: traces, each of them records with the answers that the sweep expects. It
//! knows the form of records, and nothing of what a step does.

use crate::form::*;
use std::fmt::Write;

/// A case that is begun ends within these.
const CASE_BYTES: usize = 16_000;
const CASE_RECORDS: usize = 1_500;

/// The fields of a registers record.
#[derive(Clone, Copy, Default)]
pub struct Registers {
    pub eip: u32,
    pub eflags: u32,
    pub cr0: u32,
    pub dr7: u32,
    pub selector: u16,
    pub descriptor: u64,
    pub level: u8,
    pub writable: u8,
}

/// The fields of a boundary record; the interruption by its number.
#[derive(Clone, Copy, Default)]
pub struct Boundary {
    pub smi: u8,
    pub current: u32,
    pub interruption: u8,
    pub port: u16,
    pub size: u8,
    pub data: u32,
    pub index: u32,
}

impl Boundary {
    /// Without what the interruption carries, but a size where it is an output.
    pub fn new(smi: u8, interruption: u8) -> Boundary {
        let mut boundary = Boundary::default();
        (boundary.smi, boundary.interruption) = (smi, interruption);
        boundary.size = boundary.is_output().into();
        boundary
    }

    pub fn is_output(&self) -> bool {
        matches!(self.interruption, 2 | 4 | 6)
    }

    pub fn is_string(&self) -> bool {
        matches!(self.interruption, 3..=6)
    }

    pub fn is_rep(&self) -> bool {
        matches!(self.interruption, 5 | 6)
    }
}

#[derive(Default)]
pub struct Trace {
    pub mii: bool,
    pub bytes: Vec<u8>,
    pub lines: String,
    pub records: usize,
}

impl Trace {
    /// A record, and the answer and the value that are expected of it.
    pub fn record(&mut self, kind: u16, body: &[&[u8]], answer: u32, value: u32) {
        let body = body.concat();
        self.bytes.extend((body.len() as u16 + 2).to_le_bytes());
        self.bytes.extend(kind.to_le_bytes());
        self.bytes.extend(body);
        writeln!(self.lines, "{answer} {value:08x}").expect("a string takes all");
        self.records += 1;
    }

    /// A group: its records are those of the first turn, and each turn has to make the same ones.
    pub fn group(&mut self, count: u16, mut turn: impl FnMut(&mut Trace, u16)) {
        let head = self.bytes.len();
        self.bytes.extend([0; GROUP_HEAD]);
        let list = self.bytes.len();
        turn(self, 0);
        let end = self.bytes.len();
        for number in 1..count {
            turn(self, number);
            assert!(self.bytes[end..] == self.bytes[list..end], "another turn");
            self.bytes.truncate(end);
        }
        let length = (end - head - 2) as u16;
        let fields = [length, GROUP, count].map(u16::to_le_bytes);
        self.bytes[head..list].copy_from_slice(fields.as_flattened());
    }

    pub fn reset(&mut self) {
        self.record(RESET, &[], 0, 0);
    }

    pub fn halt(&mut self, answer: u32) {
        self.record(HALT, &[], answer, 0);
    }

    pub fn wake(&mut self) {
        self.record(WAKE, &[], 0, 0);
    }

    pub fn registers(&mut self, r: &Registers, answer: u32) {
        let numbers = [r.eip, r.eflags, r.cr0, r.dr7].map(u32::to_le_bytes);
        let (selector, descriptor) = (r.selector.to_le_bytes(), r.descriptor.to_le_bytes());
        let body = [numbers.as_flattened(), &selector, &descriptor].concat();
        self.record(REGISTERS, &[&body, &[r.level, r.writable]], answer, 0);
    }

    /// A data read: of this value, or absent.
    pub fn read(&mut self, width: u8, address: u32, value: Option<u32>) {
        self.read_answer(width, address, if value.is_some() { 6 } else { 5 }, value);
    }

    pub fn read_answer(&mut self, width: u8, address: u32, answer: u32, value: Option<u32>) {
        let body = [&[width][..], &address.to_le_bytes()];
        self.record(READ, &body, answer, value.unwrap_or(0));
    }

    pub fn write(&mut self, width: u8, address: u32, value: u32, answer: u32) {
        let body = [&[width][..], &address.to_le_bytes(), &value.to_le_bytes()];
        self.record(WRITE, &body, answer, 0);
    }

    /// A port read: internal with this value, or external.
    pub fn input(&mut self, port: u16, value: Option<u8>) {
        self.input_answer(port, if value.is_some() { 6 } else { 7 }, value);
    }

    pub fn input_answer(&mut self, port: u16, answer: u32, value: Option<u8>) {
        let value = value.unwrap_or(0).into();
        self.record(IN, &[&port.to_le_bytes()], answer, value);
    }

    pub fn output(&mut self, port: u16, value: u8, answer: u32) {
        self.record(OUT, &[&port.to_le_bytes(), &[value]], answer, 0);
    }

    /// Writes a configuration byte that is internal.
    pub fn set(&mut self, index: u8, value: u8) {
        self.output(0x22, index, 0);
        self.output(0x23, value, 0);
    }

    /// Reads one.
    pub fn holds(&mut self, index: u8, value: u8) {
        self.output(0x22, index, 0);
        self.input(0x23, Some(value));
    }

    pub fn opcode(&mut self, byte: u8, modrm: u8, address: u32, next: u32, answer: u32) {
        let body = [
            &[byte, modrm][..],
            &address.to_le_bytes(),
            &next.to_le_bytes(),
        ];
        self.record(OPCODE, &body, answer, 0);
    }

    pub fn boundary(&mut self, b: &Boundary, answer: u32) {
        let (current, port) = (b.current.to_le_bytes(), b.port.to_le_bytes());
        let (data, index) = (b.data.to_le_bytes(), b.index.to_le_bytes());
        let head = [&[b.smi][..], &current, &[b.interruption], &port].concat();
        self.record(BOUNDARY, &[&head, &[b.size], &data, &index], answer, 0);
    }
}

pub struct Sweep {
    pub mii: bool,
    pub traces: Vec<Trace>,
}

impl Sweep {
    /// A new trace. The program starts it from reset, with zeros in both memories.
    pub fn fresh(&mut self) -> &mut Trace {
        let mut trace = Trace::default();
        trace.mii = self.mii;
        self.traces.push(trace);
        self.traces.last_mut().expect("just made")
    }

    /// The trace for the next case: the last one, or where that has no room a new one, begun so.
    pub fn case(&mut self, begin: fn(&mut Trace)) -> &mut Trace {
        let has_room = |t: &Trace| {
            t.bytes.len() + CASE_BYTES <= INPUT_LIMIT && t.records + CASE_RECORDS <= RECORD_LIMIT
        };
        if !self.traces.last().is_some_and(has_room) {
            begin(self.fresh());
        }
        self.traces.last_mut().expect("there is one")
    }
}
