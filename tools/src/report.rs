//! A trace's text with the answer of each record.

use crate::differences::{
    other_count, played_turns, show_answers, show_expected, show_turns, without_record,
};
use crate::form::Stop;
use crate::output::Output;
use crate::played::Played;
use crate::text::{Answer, Block, Form, Line, Text};
use std::collections::BTreeMap;
use std::ops::Range;

/// How wide the text before an answer is, at the least.
const WIDTH: usize = 36;

pub struct Report<'a> {
    pub text: &'a Text,
    pub played: &'a Played,
    pub out: &'a mut Output,
}

impl Report<'_> {
    pub fn show(&mut self) {
        let mut next = 1;
        for block in &self.text.blocks {
            match block.repeat {
                Some((from, to)) => {
                    self.echo(next..from);
                    self.repeat(block, from, to);
                    next = to + 1;
                }
                None => {
                    let last = self.text.lines[block.lines.end - 1].number;
                    self.turn(block, 0, next..last + 1);
                    next = last + 1;
                }
            }
        }
        self.echo(next..self.text.source.len() + 1);
        self.stop();
    }

    /// Once if every turn gave the same, else turn by turn; what was not played, once.
    fn repeat(&mut self, block: &Block, from: usize, to: usize) {
        let (body, turns) = (from + 1..to, block.turns);
        let played = played_turns(block, self.played);
        if 1 < turns && played == turns && self.has_same_turns(block) {
            self.put_line(from, &format!("-- {turns} turns, each the same"));
            self.turn(block, 0, body);
        } else {
            for turn in 0..played {
                self.put_line(
                    from,
                    &format!("-- {}", show_turns(&(turn..turn + 1), turns)),
                );
                self.turn(block, turn, body.clone());
            }
            if played < turns {
                self.put_line(from, &format!("-- {}", show_turns(&(played..turns), turns)));
                self.turn(block, played, body);
            }
        }
        self.echo(to..to + 1);
    }

    fn has_same_turns(&self, block: &Block) -> bool {
        let as_in_the_first = |turn: usize| {
            let mut lines = block.lines.clone();
            lines.all(|line| {
                self.played
                    .is_same(block.place(turn, line), block.place(0, line))
            })
        };
        (1..block.turns).all(as_in_the_first)
    }

    /// Lines of the text by their numbers, those of a block with what came of them in a turn.
    fn turn(&mut self, block: &Block, turn: usize, numbers: Range<usize>) {
        let lines = &self.text.lines[block.lines.clone()];
        for number in numbers {
            match lines.binary_search_by_key(&number, |line| line.number) {
                Ok(at) => self.line(&lines[at], block.place(turn, block.lines.start + at)),
                Err(_) => self.echo(number..number + 1),
            }
        }
    }

    /// Lines that stand for no bytes; of the expected reason, which the end answers, the comment.
    fn echo(&mut self, numbers: Range<usize>) {
        for number in numbers {
            if self.text.reason.is_none_or(|(line, _)| line != number) {
                self.out.line(&self.text.source[number - 1]);
            } else if let Some(comment) = self.text.comment(number) {
                self.out.line(&format!("#{comment}"));
            }
        }
    }

    /// A line with the answers of its record, or with the records that end in it under it.
    fn line(&mut self, line: &Line, place: usize) {
        let outcome = self.played.outcome(line, place);
        let records = outcome.records;
        let expected = line.expected.as_ref();
        match line.form {
            Form::Group if outcome.own => return self.put_line(line.number, ""),
            Form::Record if outcome.own => {
                let answers = self.answers(records);
                let met = expected.is_none_or(|expected| {
                    expected.is_count(records.len())
                        && expected.answers().zip(&answers).all(|(e, a)| e == *a)
                });
                let differs = expected.filter(|_| !met).map(show_expected);
                let answers = show_answers(answers.into_iter());
                return self.put_line(line.number, &format!("-> {answers}{}", differing(differs)));
            }
            _ => (),
        }
        let count = expected.and_then(|expected| other_count(expected, records.len()));
        let remark = match (records.is_empty(), outcome.whole, count) {
            (true, ..) => {
                let expected = expected.map(show_expected);
                format!("-> {}{}", without_record(&outcome), differing(expected))
            }
            (false, _, Some((came, count))) => format!("-> {came}{}", differing(Some(count))),
            (false, true, None) => String::new(),
            (false, false, None) => "-> not played to its end".into(),
        };
        self.put_line(line.number, &remark);
        self.under(line, records);
    }

    /// The records that end in a line, each with its answers, one for each turn of the groups round it.
    fn under(&mut self, line: &Line, records: &[usize]) {
        let expected = line.expected.as_ref();
        let mut expected: Vec<Answer> = expected.map_or(Vec::new(), |expected| {
            expected.answers().take(records.len()).collect()
        });
        let answers = self.answers(records);
        // What is wanting or over is told with the line.
        expected.extend(&answers[expected.len()..]);
        let mut by_end: BTreeMap<usize, Vec<usize>> = BTreeMap::new();
        for (index, record) in records.iter().enumerate() {
            let end = self.played.bytes_of(*record).end;
            by_end.entry(end).or_default().push(index);
        }
        for own in by_end.into_values() {
            let differs = own.iter().any(|index| expected[*index] != answers[*index]);
            let of = |all: &[Answer]| show_answers(own.iter().map(|index| all[*index]));
            let differs = differs.then(|| of(&expected));
            let remark = format!("-> {}{}", of(&answers), differing(differs));
            let text = format!("  {}", self.played.text_of(records[own[0]]));
            self.put(&text, &remark, None);
        }
    }

    fn answers(&self, records: &[usize]) -> Vec<Answer> {
        let answers = records.iter().map(|record| self.played.answer(*record));
        answers.collect()
    }

    /// A line of the text with a remark in the place of its expectation.
    fn put_line(&mut self, number: usize, remark: &str) {
        self.put(self.text.code(number), remark, self.text.comment(number));
    }

    fn put(&mut self, text: &str, remark: &str, comment: Option<&str>) {
        let line = format!("{text:<WIDTH$} {remark}");
        let comment = comment.map_or(String::new(), |comment| format!("  #{comment}"));
        self.out.line(&format!("{}{comment}", line.trim_end()));
    }

    /// What is bad at a byte, and where within the group that begins there.
    fn bad(&self, at: usize) -> String {
        match self.played.fault() {
            Some(fault) if fault.at > 0 => {
                let (within, what) = (at + fault.at, fault.what);
                format!("stopped at byte {at}: the group is bad: at byte {within}, {what}")
            }
            fault => {
                let what = fault.map_or("", |fault| fault.what);
                format!("stopped at byte {at}: {what}")
            }
        }
    }

    /// Why it stopped, where that is not the end that was to be expected.
    fn stop(&mut self) {
        let at = self.played.played_to();
        let why = match self.played.stop {
            Stop::End => "stopped at the end".into(),
            Stop::Limit => "stopped after 10,000 records, the most that are played".into(),
            Stop::Torn => format!("stopped at byte {at}: the trace ends within a record or a group"),
            Stop::Bad => self.bad(at),
            Stop::Long => "not played: a trace has 65,536 bytes at most".into(),
        };
        let expected = self.text.reason.map(|(_, reason)| reason);
        match expected.filter(|reason| *reason != self.played.stop) {
            Some(reason) => {
                let reason = reason.word();
                self.out.line(&format!("{why}  DIFFERS, expected {reason}"));
            }
            None if self.played.stop == Stop::End => (),
            None => self.out.line(&why),
        }
    }
}

fn differing(expected: Option<String>) -> String {
    expected.map_or(String::new(), |expected| {
        format!("  DIFFERS, expected {expected}")
    })
}
