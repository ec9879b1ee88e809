//! What a trace's text expects, held to what was played.

use crate::played::{Outcome, Played};
use crate::rostuvlad::VALUE;
use crate::text::{Answer, Block, Expected, Line, Text};
use crate::words::shortened;
use std::ops::Range;

/// What the answers are called, by their numbers (docs/MODEL.md).
const ANSWERS: [&str; 13] = [
    "done",
    "wrong size",
    "malformed",
    "halted",
    "invalid opcode",
    "absent memory",
    "value",
    "external",
    "nothing",
    "ignored",
    "latched",
    "entered",
    "resumed",
];

pub fn show_answer((number, value): Answer) -> String {
    let name = ANSWERS[usize::from(number)];
    if number == VALUE {
        format!("{number} {name} {value:08x}")
    } else {
        format!("{number} {name}")
    }
}

/// So many stretches of equal answers are shown of a line at the most.
const STRETCHES: usize = 8;

/// Answers one after the other, and how many times each comes.
pub fn show_answers(answers: impl Iterator<Item = Answer>) -> String {
    let mut stretches: Vec<(Answer, usize)> = Vec::new();
    for answer in answers {
        match stretches.last_mut() {
            Some((last, times)) if *last == answer => *times += 1,
            _ => stretches.push((answer, 1)),
        }
    }
    show_stretches(&stretches)
}

fn show_stretches(stretches: &[(Answer, usize)]) -> String {
    let stretch = |(answer, times): &(Answer, usize)| match times {
        1 => show_answer(*answer),
        _ => format!("{} x{times}", show_answer(*answer)),
    };
    let shown: Vec<String> = stretches.iter().take(STRETCHES).map(stretch).collect();
    let more = if stretches.len() > STRETCHES {
        ", .."
    } else {
        ""
    };
    format!("{}{more}", shown.join(", "))
}

pub fn show_expected(expected: &Expected) -> String {
    show_stretches(&expected.stretches)
}

/// How many records end in a line, and how many were to, where that is another number.
pub fn other_count(expected: &Expected, records: usize) -> Option<(String, String)> {
    let ends = match records {
        1 => "1 record ends here".into(),
        _ => format!("{records} records end here"),
    };
    (!expected.is_count(records)).then(|| (ends, expected.count()))
}

/// What is said of a line in which no record ends.
pub fn without_record(outcome: &Outcome) -> &'static str {
    if outcome.whole {
        "no record ends here"
    } else {
        "not played"
    }
}

/// An expectation that was not met, in some turns of its line.
pub struct Difference<'a> {
    block: &'a Block,
    line: &'a Line,
    turns: Range<usize>,
    /// Which of the records that end in the line it is, where there are several.
    record: String,
    came: String,
    expected: String,
}

impl Difference<'_> {
    pub fn show(&self, text: &Text) -> String {
        let number = self.line.number;
        let turns = match self.block.repeat {
            Some(_) => format!("{}: ", show_turns(&self.turns, self.block.turns)),
            None => String::new(),
        };
        let code = shortened(text.code(number).trim_start(), 120);
        let (record, came, expected) = (&self.record, &self.came, &self.expected);
        format!("{number}: {turns}{record}{code}: {came}, expected {expected}")
    }
}

/// How many of a block's turns were played, the last one perhaps in part.
pub fn played_turns(block: &Block, played: &Played) -> usize {
    let is_begun = |turn: &usize| played.is_begun(block.place(*turn, block.lines.start));
    (0..block.turns).take_while(is_begun).count()
}

/// The lines that differ, in the order of the trace.
pub fn differences<'a>(text: &'a Text, played: &Played) -> Vec<Difference<'a>> {
    let mut all = Vec::new();
    for block in &text.blocks {
        let begun = played_turns(block, played);
        let one_by_one = (0..begun).map(|turn| turn..turn + 1);
        let unplayed = (begun < block.turns).then_some(begun..block.turns);
        for turns in one_by_one.chain(unplayed) {
            for index in block.lines.clone() {
                let line = &text.lines[index];
                let outcome = played.outcome(line, block.place(turns.start, index));
                let unmet = unmet(line, &outcome, played);
                all.extend(unmet.map(|(record, came, expected)| Difference {
                    block,
                    line,
                    turns: turns.clone(),
                    record,
                    came,
                    expected,
                }));
            }
        }
    }
    all
}

/// What differs in the reason for stopping, if it does.
pub fn other_reason(text: &Text, played: &Played) -> Option<String> {
    let (line, reason) = text.reason?;
    let (stop, reason) = (played.stop.word(), reason.word());
    (stop != reason).then(|| format!("{line}: stopped with {stop}, expected {reason}"))
}

/// Which record of a line is not what is expected, what came of it and what was expected: of the
/// first such record, or of how many there are.
fn unmet(line: &Line, outcome: &Outcome, played: &Played) -> Option<(String, String, String)> {
    let expected = line.expected.as_ref()?;
    let records = outcome.records;
    if records.is_empty() {
        let came = without_record(outcome).into();
        return Some((String::new(), came, show_expected(expected)));
    }
    let mut answers = expected.answers().zip(records).enumerate();
    let other = answers.find(|(_, (answer, record))| *answer != played.answer(**record));
    if let Some((index, (answer, record))) = other {
        let place = match records.len() {
            1 => String::new(),
            all => format!("record {} of {all}: ", index + 1),
        };
        let came = show_answer(played.answer(*record));
        return Some((place, came, show_answer(answer)));
    }
    other_count(expected, records.len()).map(|(came, count)| (String::new(), came, count))
}

pub fn show_turns(turns: &Range<usize>, of: usize) -> String {
    match turns.len() {
        1 => format!("turn {} of {of}", turns.end),
        _ => format!("turns {} to {} of {of}", turns.start + 1, turns.end),
    }
}

/// How many records were played, how much was expected of them and how much of it differs.
#[derive(Default)]
pub struct Tally {
    pub records: usize,
    pub expectations: usize,
    pub differ: usize,
}

impl Tally {
    pub fn of(text: &Text, played: &Played, differences: &[Difference]) -> Tally {
        let of_block = |block: &Block| {
            let lines = &text.lines[block.lines.clone()];
            block.turns * lines.iter().filter(|line| line.expected.is_some()).count()
        };
        let of_lines: usize = text.blocks.iter().map(of_block).sum();
        let in_lines: usize = differences.iter().map(|d| d.turns.len()).sum();
        Tally {
            records: played.records().len(),
            expectations: of_lines + usize::from(text.reason.is_some()),
            differ: in_lines + usize::from(other_reason(text, played).is_some()),
        }
    }

    pub fn add(&mut self, other: &Tally) {
        self.records += other.records;
        self.expectations += other.expectations;
        self.differ += other.differ;
    }

    pub fn words(&self) -> String {
        let Tally {
            records,
            expectations,
            differ,
        } = self;
        format!("{records} records, {expectations} expectations, {differ} differ")
    }
}
