//! Replays 01's printed example, a trace on a management memory that the caller filled, and one on
//! the later core. `examples/run` holds what this prints to what was worked out from 01 and 02 by hand.

#[path = "../include/rostuvlad.rs"]
mod rostuvlad;

use rostuvlad::{Edition, Event, Reason, MANAGEMENT_SIZE};

#[rustfmt::skip]
const PRINTED: &[u8] = &[
    5, 0, 6, 0, 0x22, 0, 0xC1, // out 22h C1h
    5, 0, 6, 0, 0x23, 0, 0x06, // out 23h 06h
    5, 0, 6, 0, 0x22, 0, 0xC1, // out 22h C1h
    4, 0, 5, 0, 0x23, 0,       // in 23h
];

#[rustfmt::skip]
const WINDOW: &[u8] = &[
    // SMAR 000683h: the region is 16 KiB at 68000h, and its byte k is management[k]
    5, 0, 6, 0, 0x22, 0, 0xCD,
    5, 0, 6, 0, 0x23, 0, 0x00,
    5, 0, 6, 0, 0x22, 0, 0xCE,
    5, 0, 6, 0, 0x23, 0, 0x06,
    5, 0, 6, 0, 0x22, 0, 0xCF,
    5, 0, 6, 0, 0x23, 0, 0x83,
    // CCR1 06h: USE_SMI and SMAC, the window is open
    5, 0, 6, 0, 0x22, 0, 0xC1,
    5, 0, 6, 0, 0x23, 0, 0x06,
    // read 4 68010h; write 4 68020h 11223344h; read 2 68022h
    7, 0, 3, 0, 4, 0x10, 0x80, 0x06, 0,
    11, 0, 4, 0, 4, 0x20, 0x80, 0x06, 0, 0x44, 0x33, 0x22, 0x11,
    7, 0, 3, 0, 2, 0x22, 0x80, 0x06, 0,
    // CCR1 02h: closed. read 4 68020h is main memory's then, beyond its end
    5, 0, 6, 0, 0x22, 0, 0xC1,
    5, 0, 6, 0, 0x23, 0, 0x02,
    7, 0, 3, 0, 4, 0x20, 0x80, 0x06, 0,
    // boundary with SMI at 1000h; the handler's read 4 68020h, and a wake
    19, 0, 8, 0, 1, 0x00, 0x10, 0, 0, 0, 0, 0, 0, 0, 0, 0, 0, 0, 0, 0, 0,
    7, 0, 3, 0, 4, 0x20, 0x80, 0x06, 0,
    2, 0, 10, 0,
];

#[rustfmt::skip]
const LATER: &[u8] = &[
    // SMAR 000683h again, and CCR1 06h
    5, 0, 6, 0, 0x22, 0, 0xCE,
    5, 0, 6, 0, 0x23, 0, 0x06,
    5, 0, 6, 0, 0x22, 0, 0xCF,
    5, 0, 6, 0, 0x23, 0, 0x83,
    5, 0, 6, 0, 0x22, 0, 0xC1,
    5, 0, 6, 0, 0x23, 0, 0x06,
    // write 4 100h 69000h; wrshr 100h next=1003h: the header ends at 69000h, in mid-region
    11, 0, 4, 0, 4, 0x00, 0x01, 0, 0, 0x00, 0x90, 0x06, 0,
    12, 0, 7, 0, 0x37, 0x05, 0x00, 0x01, 0, 0, 0x03, 0x10, 0, 0,
    // CCR1 02h, a boundary with SMI at 1000h, and RSM
    5, 0, 6, 0, 0x22, 0, 0xC1,
    5, 0, 6, 0, 0x23, 0, 0x02,
    19, 0, 8, 0, 1, 0x00, 0x10, 0, 0, 0, 0, 0, 0, 0, 0, 0, 0, 0, 0, 0, 0,
    12, 0, 7, 0, 0xAA, 0, 0, 0, 0, 0, 0, 0, 0, 0,
];

fn replay(edition: Edition, trace: &[u8], main: &mut [u8], management: &mut [u8]) -> Vec<Event> {
    let played = edition.replay(trace, main, management);
    for event in &played.events {
        println!("{} {:08x}", event.answer(), event.value());
    }
    let word = match played.reason {
        Reason::End => "end",
        Reason::Limit => "limit",
        Reason::Torn => "torn",
        Reason::Bad => "bad",
    };
    println!("{word}");
    played.events
}

fn show_management(management: &[u8], from: usize, to: usize) {
    print!("management {from:X}h to {to:X}h:");
    for byte in &management[from..=to] {
        print!(" {byte:02x}");
    }
    println!();
}

fn main() {
    let mut main = vec![0; 65_536];
    let mut management = vec![0; MANAGEMENT_SIZE];
    replay(Edition::Cx486, PRINTED, &mut main, &mut management);

    for (k, byte) in management.iter_mut().enumerate() {
        *byte = k as u8;
    }
    let events = replay(Edition::Cx486, WINDOW, &mut main, &mut management);
    for (i, event) in events.iter().enumerate() {
        if event.inside() {
            println!("record {}, of kind {}, was inside", i + 1, event.kind());
        }
    }
    show_management(&management, 0x1F, 0x24);

    replay(Edition::Mii, LATER, &mut main, &mut management);
    for from in (0xFC0..=0x1000).step_by(16) {
        show_management(&management, from, from + 15);
    }
}
