// Times the calls of the record counter's journal (02, request 4) on areas with no slot, 340 and all 341 slots taken, or with as many as
// the second argument says. A round is 1,000 calls of each kind; prints the best and the median of as many rounds as the first argument
// says, 1,000 without one, in nanoseconds a call.
//
// After each raise the area is set back by one byte store, 0 to the new slot's length, within the time: the slot is then free, with the
// old bytes as leftovers. With 341 slots every raise is refused, and with none every number.
//
//   tools/build journal && rustc -O bench/journal.rs -L target/staticlib -l static=journal_export -o target/journal-bench && target/journal-bench
use std::hint::black_box;
use std::time::Instant;

#[path = "../include/rostuvlad_journal.rs"]
mod rostuvlad_journal;
use rostuvlad_journal::{next, raise, restart, SIZE, SLOTS};

const CALLS: usize = 1_000;
const STEP: u64 = 1 << 40;
const SLOT_SIZE: usize = 12;

// What a kind of call does, and its times.
struct Timed {
    name: &'static str,
    times: Vec<f64>,
}

impl Timed {
    fn new(name: &'static str) -> Timed {
        Timed { name, times: vec![] }
    }

    fn round(&mut self, mut call: impl FnMut()) {
        let start = Instant::now();
        for _ in 0..CALLS {
            call();
        }
        self.times.push(start.elapsed().as_nanos() as f64 / CALLS as f64);
    }

    fn show(&mut self) {
        self.times.sort_by(|x, y| x.total_cmp(y));
        println!("  {:<14} best {:7.1}, median {:7.1} ns", self.name, self.times[0], self.times[self.times.len() / 2]);
    }
}

fn time(slots: usize, rounds: usize) {
    let mut area = [0; SIZE];
    for slot in 0..slots {
        raise(&mut area, (slot as u64 + 1) * STEP).expect("a free slot");
    }
    let ceiling = slots as u64 * STEP;
    let mut restarts = Timed::new("restart");
    let mut numbers = Timed::new(if slots == 0 { "next, refused" } else { "next" });
    let mut raises = Timed::new(if slots == SLOTS { "raise, refused" } else { "raise" });
    let (mut begun, mut number) = (0, 0);
    for _ in 0..rounds {
        restarts.round(|| {
            assert!(restart(black_box(&area), &mut begun).is_ok());
        });
        assert!(begun == ceiling);
        let mut counter = 0;
        numbers.round(|| {
            assert!(next(black_box(&area), &mut counter, &mut number).is_ok() == (slots > 0));
        });
        assert!(slots == 0 || number == CALLS as u64 - 1);
        raises.round(|| {
            assert!(raise(black_box(&mut area), ceiling + STEP).is_ok() == (slots < SLOTS));
            if slots < SLOTS {
                area[SLOT_SIZE * slots] = 0;
            }
        });
    }
    println!("{slots} slots taken, {rounds} rounds:");
    for timed in [&mut restarts, &mut numbers, &mut raises] {
        timed.show();
    }
}

fn main() {
    let number = |place| std::env::args().nth(place).map(|n| n.parse::<usize>().expect("a number"));
    let rounds = number(1).unwrap_or(1_000);
    for slots in number(2).map_or(vec![0, SLOTS - 1, SLOTS], |slots| vec![slots]) {
        time(slots, rounds);
    }
}
