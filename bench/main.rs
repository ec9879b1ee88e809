// Times the replay alone: traces of 5,000 four-byte accesses, half of them in the region, reads and writes in turn. Each run has a trace of
// its own, since a processor learns one that is played again and again by heart. Every other access is in the region; with the second
// argument `shuffled` they come in a random order. Both memories are cleared before each run, outside the time. Prints the best and the
// median of as many runs as the first argument says, 3,000 without one.
//
// With the second argument `groups` it times 10,000 port reads instead, in the forms of FORMS: written out, and from repeat groups. A third
// argument names one of the forms, to be counted alone.
//
//   tools/build library && rustc -O bench/main.rs -L target/staticlib -l static=export -o target/replay-bench && target/replay-bench
use std::time::Instant;

#[path = "../include/rostuvlad.rs"]
mod rostuvlad;
use rostuvlad::{Event, Reason, RECORD_LIMIT};

const MEMORY: usize = 65_536;
const ACCESSES: usize = 5_000;

fn out(trace: &mut Vec<u8>, port: u16, value: u8) {
    trace.extend([5, 0, 6, 0]);
    trace.extend(port.to_le_bytes());
    trace.push(value);
}

fn read(trace: &mut Vec<u8>, address: u32) {
    trace.extend([7, 0, 3, 0, 4]);
    trace.extend(address.to_le_bytes());
}

fn write(trace: &mut Vec<u8>, address: u32, value: u32) {
    trace.extend([11, 0, 4, 0, 4]);
    trace.extend(address.to_le_bytes());
    trace.extend(value.to_le_bytes());
}

// SMAR 000683h, 16 KiB at 68000h, with USE_SMI and SMAC: the region's bytes go to management memory.
fn trace(start: u64, shuffled: bool) -> Vec<u8> {
    let mut t = vec![];
    for (index, value) in [(0xCD, 0x00), (0xCE, 0x06), (0xCF, 0x83), (0xC1, 0x06)] {
        out(&mut t, 0x22, index);
        out(&mut t, 0x23, value);
    }
    let mut random = random_from(start);
    let mut inside: Vec<bool> = (0..ACCESSES).map(|i| i % 2 == 0).collect();
    if shuffled {
        for i in (1..ACCESSES).rev() {
            inside.swap(i, random() as usize % (i + 1));
        }
    }
    for i in 0..ACCESSES {
        let address = if inside[i] { 0x68000 + random() % (16_384 - 3) } else { random() % (MEMORY as u32 - 3) };
        if i / 2 % 2 == 0 {
            read(&mut t, address);
        } else {
            write(&mut t, address, random());
        }
    }
    t
}

fn random_from(start: u64) -> impl FnMut() -> u32 {
    let mut seed = start;
    move || {
        seed = seed.wrapping_mul(6_364_136_223_846_793_005).wrapping_add(1_442_695_040_888_963_407);
        (seed >> 33) as u32
    }
}

fn group(count: u16, list: &[u8]) -> Vec<u8> {
    let mut trace = (list.len() as u16 + 4).to_le_bytes().to_vec();
    trace.extend([16, 0]);
    trace.extend(count.to_le_bytes());
    trace.extend(list);
    trace
}

// The forms of 10,000 port reads: a name, how many reads are written, and the groups round them, the innermost first.
const FORMS: [(&str, usize, &[u16]); 6] = [
    ("written-out", RECORD_LIMIT, &[]),
    ("one-turn", RECORD_LIMIT, &[1]),
    ("hundred", 100, &[100]),
    ("one-record", 1, &[10_000]),
    ("four-levels", 1, &[10, 10, 10, 10]),
    ("eight-levels", 1, &[1, 1, 1, 1, 1, 1, 1, 10_000]),
];

// Reads of ports that are external but for 23h, and that one is not armed: each answers 7.
fn reads(start: u64, count: usize, groups: &[u16]) -> Vec<u8> {
    let mut random = random_from(start);
    let mut t = vec![];
    for _ in 0..count {
        t.extend([4, 0, 5, 0]);
        t.extend((random() as u16).to_le_bytes());
    }
    groups.iter().fold(t, |list, count| group(*count, &list))
}

// The forms by turns, so that a change of the computer's speed meets all of them.
fn time_groups(runs: usize, only: Option<&str>) {
    let forms: Vec<_> = FORMS.iter().filter(|(name, ..)| only.map_or(true, |only| only == *name)).collect();
    assert!(!forms.is_empty(), "the third argument is a form's name or nothing");
    let (mut main, mut management, mut log) = (vec![0; MEMORY], vec![0; MEMORY], [Event::default(); RECORD_LIMIT]);
    let mut times = vec![vec![]; forms.len()];
    for run in 0..runs {
        for ((_, count, groups), times) in forms.iter().zip(&mut times) {
            let t = reads(12_345 + run as u64, *count, groups);
            log.fill(Event::default());
            let start = Instant::now();
            let (count, reason) = rostuvlad::replay_into(&t, &mut main, &mut management, &mut log);
            times.push(start.elapsed().as_nanos() as f64);
            assert!(count == RECORD_LIMIT && reason == Reason::End, "count {}, reason {:?}", count, reason);
            assert!(log.iter().all(|event| event.answer() == rostuvlad::EXTERNAL), "an answer is another");
        }
    }
    for ((name, count, groups), mut times) in forms.into_iter().zip(times) {
        times.sort_by(|x, y| x.total_cmp(y));
        let per = |ns: f64| ns / RECORD_LIMIT as f64;
        let bytes = reads(0, *count, groups).len();
        println!("{name:<12} {bytes:>6} bytes, runs {runs}: best {:.2}, median {:.2} ns a record", per(times[0]), per(times[runs / 2]));
    }
}

fn main() {
    let runs: usize = std::env::args().nth(1).map_or(3_000, |n| n.parse().expect("a number of runs"));
    let order = std::env::args().nth(2);
    if order.as_deref() == Some("groups") {
        return time_groups(runs, std::env::args().nth(3).as_deref());
    }
    assert!(order.as_deref().map_or(true, |word| word == "shuffled"), "the second argument is `shuffled`, `groups` or nothing");
    let shuffled = order.is_some();
    let (mut main, mut management, mut log) = (vec![0; MEMORY], vec![0; MEMORY], [Event::default(); RECORD_LIMIT]);
    let mut times = vec![];
    for run in 0..runs {
        let t = trace(12_345 + run as u64, shuffled);
        main.fill(0);
        management.fill(0);
        let start = Instant::now();
        let (count, reason) = rostuvlad::replay_into(&t, &mut main, &mut management, &mut log);
        times.push(start.elapsed().as_nanos() as f64);
        assert!(count == ACCESSES + 8 && reason == Reason::End, "count {}, reason {:?}", count, reason);
    }
    times.sort_by(|x, y| x.total_cmp(y));
    let per = |ns: f64| ns / (ACCESSES + 8) as f64;
    println!("runs {runs}: best {:.2}, median {:.2} ns a record", per(times[0]), per(times[runs / 2]));
}
