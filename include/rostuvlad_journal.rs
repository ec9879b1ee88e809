//! The record counter's journal of 02, request 4, for Rust programs. docs/LIBRARY.md says how to link
//! it, and what is proved; include/rostuvlad_journal.h is the same for C, and says more of each call.
#![allow(dead_code)]

/// An area has exactly so many bytes; a fresh one is all zero.
pub const SIZE: usize = 4_096;
/// So many raises fill it.
pub const SLOTS: usize = 341;
/// A raise makes so many byte stores, the last of which makes it count.
pub const STORES: u8 = 11;
const SLOT_SIZE: usize = 12;

// The results.
pub const DONE: u8 = 0;
pub const REFUSED: u8 = 1;

/// A call was refused, and left all that it was lent as it was.
#[derive(Clone, Copy, Debug, PartialEq, Eq)]
pub struct Refused;

unsafe extern "C" {
    // A slice passes as a pointer and a length, a reference to a number as a pointer.
    fn rostuvlad_journal_restart(area: *const u8, size: usize, next: *mut u64) -> u8;
    fn rostuvlad_journal_next(area: *const u8, size: usize, next: *mut u64, number: *mut u64)
        -> u8;
    fn rostuvlad_journal_raise(area: *mut u8, size: usize, ceiling: u64) -> u8;
    fn rostuvlad_journal_raise_part(area: *mut u8, size: usize, ceiling: u64, stores: u8) -> u8;
}

fn answer(result: u8) -> Result<(), Refused> {
    if result == DONE {
        Ok(())
    } else {
        Err(Refused)
    }
}

/// Sets `next` to the last ceiling, or to 0 with none.
pub fn restart(area: &[u8], next: &mut u64) -> Result<(), Refused> {
    // SAFETY: references keep what the library asks of pointers, here and below.
    answer(unsafe { rostuvlad_journal_restart(area.as_ptr(), area.len(), next) })
}

/// Hands out the next number: `number` becomes `next`, and `next` is one higher.
pub fn next(area: &[u8], next: &mut u64, number: &mut u64) -> Result<(), Refused> {
    answer(unsafe { rostuvlad_journal_next(area.as_ptr(), area.len(), next, number) })
}

/// Raises the ceiling.
pub fn raise(area: &mut [u8], ceiling: u64) -> Result<(), Refused> {
    answer(unsafe { rostuvlad_journal_raise(area.as_mut_ptr(), area.len(), ceiling) })
}

/// A raise that stops after so many of its stores. With fewer than `STORES` the ceiling is not raised
/// yet, and `Ok` means only that it was not refused.
pub fn raise_part(area: &mut [u8], ceiling: u64, stores: u8) -> Result<(), Refused> {
    answer(unsafe { rostuvlad_journal_raise_part(area.as_mut_ptr(), area.len(), ceiling, stores) })
}

/// A run: the area, borrowed for it alone, and the counter. As long as it is in use, no other safe code
/// writes to the area or begins a second counter on it. Runs on one area, one after the other, hand out
/// no number twice, if the area was fresh before the first, nothing but they writes to it or hands out
/// numbers from it, and the stores reach the medium as the header says.
#[derive(Debug)]
pub struct Journal<'a> {
    area: &'a mut [u8],
    counter: u64,
}

impl<'a> Journal<'a> {
    /// Begins a run.
    pub fn restart(area: &'a mut [u8]) -> Result<Self, Refused> {
        let mut counter = 0;
        restart(area, &mut counter)?;
        Ok(Journal { area, counter })
    }

    /// The number that is handed out next, if it is below the ceiling then.
    pub fn counter(&self) -> u64 {
        self.counter
    }

    /// Hands out the next number.
    pub fn hand_out(&mut self) -> Result<u64, Refused> {
        let mut number = 0;
        next(self.area, &mut self.counter, &mut number)?;
        Ok(number)
    }

    /// Raises the ceiling.
    pub fn raise(&mut self, ceiling: u64) -> Result<(), Refused> {
        raise(self.area, ceiling)
    }

    /// A raise that stops after so many of its stores. With fewer than `STORES` the ceiling is not raised
    /// yet, and `Ok` means only that it was not refused.
    pub fn raise_part(&mut self, ceiling: u64, stores: u8) -> Result<(), Refused> {
        raise_part(self.area, ceiling, stores)
    }

    /// The 12 bytes of a slot as they are now, which no call takes for an area; `None` from `SLOTS` on.
    pub fn slot(&self, slot: usize) -> Option<&[u8]> {
        self.area.chunks_exact(SLOT_SIZE).nth(slot)
    }
}
