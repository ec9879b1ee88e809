//! The proved player for Rust programs. docs/LIBRARY.md says how to link it, and what is proved;
//! include/rostuvlad.h is the same for C, with the numbers of the kinds.
#![allow(dead_code)]

/// Management memory has exactly so many bytes.
pub const MANAGEMENT_SIZE: usize = 65_536;
/// Main memory has at most so many.
pub const LARGEST_MAIN: usize = 1_048_576;
/// The player stops after so many records.
pub const RECORD_LIMIT: usize = 10_000;

// The answers. 1 to 5 refuse a step; only VALUE carries one.
pub const DONE: u8 = 0;
pub const WRONG_SIZE: u8 = 1;
pub const MALFORMED: u8 = 2;
pub const HALTED: u8 = 3;
pub const INVALID_OPCODE: u8 = 4;
pub const ABSENT_MEMORY: u8 = 5;
pub const VALUE: u8 = 6;
pub const EXTERNAL: u8 = 7;
pub const NOTHING: u8 = 8;
pub const IGNORED: u8 = 9;
pub const LATCHED: u8 = 10;
pub const ENTERED: u8 = 11;
pub const RESUMED: u8 = 12;

/// What is noted of a record.
#[derive(Clone, Copy, Debug, Default, PartialEq, Eq)]
#[repr(transparent)]
pub struct Event(pub u64);

impl Event {
    /// The answer's number.
    pub fn answer(self) -> u8 {
        self.0 as u8
    }

    /// The value read, or 0.
    pub fn value(self) -> u32 {
        (self.0 >> 32) as u32
    }

    /// The record's kind, 1 to 10.
    pub fn kind(self) -> u8 {
        (self.0 >> 8) as u8
    }

    /// Whether the machine was inside management mode before the step.
    pub fn inside(self) -> bool {
        self.0 >> 16 & 1 == 1
    }
}

/// Why the player stopped.
#[derive(Clone, Copy, Debug, PartialEq, Eq)]
pub enum Reason {
    End,
    Limit,
    Torn,
    Bad,
}

/// What a replay tells; what it does to the memories is in the memories.
#[derive(Debug)]
pub struct Replay {
    pub events: Vec<Event>,
    pub reason: Reason,
}

macro_rules! players {
    ($($player:ident)*) => {
        unsafe extern "C" {
            // A slice passes as a pointer and a length, a reference to an array or a number as a pointer.
            $(fn $player(
                trace: *const u8,
                trace_len: usize,
                main: *mut u8,
                main_len: usize,
                management: *mut u8,
                management_len: usize,
                events: *mut u64,
                reason: *mut u8,
            ) -> usize;)*
        }
    };
}
players!(rostuvlad_replay rostuvlad_replay_mii);

/// The edition of the machine that a replay starts from.
#[derive(Clone, Copy, Debug, Default, PartialEq, Eq)]
pub enum Edition {
    #[default]
    Cx486,
    /// The later core (02 request 1).
    Mii,
}

impl Edition {
    /// Plays a trace from reset over two lent memories, into a log that is lent too. The result is the
    /// count of records, and why it stopped.
    pub fn replay_into(
        self,
        trace: &[u8],
        main: &mut [u8],
        management: &mut [u8],
        log: &mut [Event; RECORD_LIMIT],
    ) -> (usize, Reason) {
        let player = match self {
            Edition::Cx486 => rostuvlad_replay,
            Edition::Mii => rostuvlad_replay_mii,
        };
        let mut reason = 0;
        // SAFETY: references keep what the library asks of pointers, and an Event is its number.
        let count = unsafe {
            player(
                trace.as_ptr(),
                trace.len(),
                main.as_mut_ptr(),
                main.len(),
                management.as_mut_ptr(),
                management.len(),
                log.as_mut_ptr().cast(),
                &mut reason,
            )
        };
        let reason = match reason {
            0 => Reason::End,
            1 => Reason::Limit,
            2 => Reason::Torn,
            _ => Reason::Bad,
        };
        (count, reason)
    }

    /// The same, with a log of its own.
    pub fn replay(self, trace: &[u8], main: &mut [u8], management: &mut [u8]) -> Replay {
        let mut events = vec![Event::default(); RECORD_LIMIT];
        let log = events.first_chunk_mut().expect("as many as it asks for");
        let (count, reason) = self.replay_into(trace, main, management, log);
        events.truncate(count);
        Replay { events, reason }
    }
}

/// `Edition::replay_into` of the 486 edition.
pub fn replay_into(
    trace: &[u8],
    main: &mut [u8],
    management: &mut [u8],
    log: &mut [Event; RECORD_LIMIT],
) -> (usize, Reason) {
    Edition::Cx486.replay_into(trace, main, management, log)
}

/// `Edition::replay` of the 486 edition.
pub fn replay(trace: &[u8], main: &mut [u8], management: &mut [u8]) -> Replay {
    Edition::Cx486.replay(trace, main, management)
}
