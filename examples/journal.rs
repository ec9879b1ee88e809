//! The record counter's journal, with a raise that the loss of power cuts off, and with what is
//! refused. `examples/run` holds what this prints to what was worked out from 02, request 4, by hand.

#[path = "../include/rostuvlad_journal.rs"]
mod rostuvlad_journal;

use rostuvlad_journal::{Journal, Refused, SIZE, SLOTS, STORES};

fn word(result: Result<(), Refused>) -> &'static str {
    match result {
        Ok(()) => "done",
        Err(Refused) => "refused",
    }
}

fn restart(area: &mut [u8]) -> Journal<'_> {
    let journal = Journal::restart(area).expect("a well-formed area");
    println!("restart: numbers begin at {}", journal.counter());
    journal
}

fn hand_out(journal: &mut Journal) {
    match journal.hand_out() {
        Ok(number) => println!("next: {number}"),
        Err(Refused) => println!("next: refused"),
    }
}

fn raise_to(journal: &mut Journal, ceiling: u64) {
    println!("raise {ceiling}: {}", word(journal.raise(ceiling)));
}

fn cut_raise_to(journal: &mut Journal, ceiling: u64, stores: u8) {
    let result = journal.raise_part(ceiling, stores);
    println!(
        "raise {ceiling}, cut after {stores} stores: {}",
        word(result)
    );
}

fn show_slot(journal: &Journal, slot: usize) {
    print!("slot {slot}:");
    for byte in journal.slot(slot).expect("one of the slots") {
        print!(" {byte:02x}");
    }
    println!();
}

fn main() {
    // In a product, memory that outlives the power.
    let mut area = [0; SIZE];

    // A fresh area, and the numbers up to a ceiling.
    let mut journal = restart(&mut area);
    hand_out(&mut journal);
    raise_to(&mut journal, 3);
    for _ in 0..4 {
        hand_out(&mut journal);
    }
    raise_to(&mut journal, 3);
    show_slot(&journal, 0);

    // The power goes, with two stores of the kind made and five of the ceiling.
    cut_raise_to(&mut journal, 0x0102030405060708, 7);
    show_slot(&journal, 1);
    let mut journal = restart(&mut area);
    hand_out(&mut journal);

    // The slot is used again.
    raise_to(&mut journal, 5);
    show_slot(&journal, 1);
    for _ in 0..3 {
        hand_out(&mut journal);
    }

    // Ten stores, a barrier, where the medium needs one, and the raise: it makes these ten again and
    // then the last.
    cut_raise_to(&mut journal, 1000, STORES - 1);
    show_slot(&journal, 2);
    raise_to(&mut journal, 1000);
    show_slot(&journal, 2);
    hand_out(&mut journal);

    // After a restart the rest of the numbers below the ceiling is lost.
    let mut journal = restart(&mut area);

    // The slots that are left.
    let mut raises = 0;
    while journal.raise(1001 + raises).is_ok() {
        raises += 1;
    }
    println!("{raises} raises more, then refused; slots: {SLOTS}");
    restart(&mut area);

    // What a refusal leaves as it was.
    let (mut other, mut number) = (77, 88);
    let result = rostuvlad_journal::restart(&area[1..], &mut other);
    println!("restart of 4095 bytes: {}, next {other}", word(result));
    area[2] = 2;
    let result = rostuvlad_journal::next(&area, &mut other, &mut number);
    println!(
        "next with kind 2 in slot 0: {}, next {other}, number {number}",
        word(result)
    );
}
