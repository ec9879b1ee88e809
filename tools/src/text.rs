//! A trace's text (docs/TRACES.md): its lines, what they expect, and the bytes that they stand for.

use crate::edition::Edition;
use crate::form::{Stop, GROUP, GROUP_HEAD, RECORD_LIMIT};
use crate::words::{hex, parse_number, quoted, record};
use std::iter::repeat;
use std::ops::Range;

/// What is wrong with a line.
pub struct Problem {
    pub line: usize,
    pub what: String,
}

impl Problem {
    pub fn at(line: usize, what: impl Into<String>) -> Problem {
        Problem {
            line,
            what: what.into(),
        }
    }
}

/// An answer's number and value.
pub type Answer = (u8, u32);

/// The answers that are expected of the records that end in a line, in the order in which they are
/// played.
#[derive(Clone)]
pub struct Expected {
    /// Each answer, and how many times it comes.
    pub stretches: Vec<(Answer, usize)>,
    /// Whether the last is that of all further records, too.
    pub open: bool,
}

impl Expected {
    pub fn answers(&self) -> impl Iterator<Item = Answer> + '_ {
        let further = self.stretches.last().filter(|_| self.open);
        let further = further.into_iter().flat_map(|(answer, _)| repeat(*answer));
        let stretches = self.stretches.iter();
        stretches
            .flat_map(|(answer, times)| repeat(*answer).take(*times))
            .chain(further)
    }

    /// Whether so many records are not too few, nor too many.
    pub fn is_count(&self, records: usize) -> bool {
        let least = self.least();
        records == least || self.open && least < records
    }

    /// How many records there are to be, as it is told.
    pub fn count(&self) -> String {
        let more = if self.open { " or more" } else { "" };
        format!("{}{more}", self.least())
    }

    fn least(&self) -> usize {
        self.stretches.iter().map(|(_, times)| times).sum()
    }
}

#[derive(Clone, Copy, PartialEq, Eq)]
pub enum Form {
    Record,
    Raw,
    /// The head of a group; what it holds has lines of its own.
    Group,
}

/// A line that stands for bytes.
pub struct Line {
    pub number: usize,
    pub bytes: Vec<u8>,
    pub form: Form,
    pub expected: Option<Expected>,
}

/// Lines that stand for their bytes so many times: those of a `repeat`, or some outside of any.
pub struct Block {
    pub lines: Range<usize>,
    pub turns: usize,
    /// The line of `repeat`, and that of `end-repeat`.
    pub repeat: Option<(usize, usize)>,
    /// How many places come before it.
    first_place: usize,
}

impl Block {
    /// The place of one of its lines in a turn.
    pub fn place(&self, turn: usize, line: usize) -> usize {
        self.first_place + turn * self.lines.len() + (line - self.lines.start)
    }

    /// The place that follows it.
    fn next_place(&self) -> usize {
        self.first_place + self.turns * self.lines.len()
    }
}

#[derive(Default)]
pub struct Text {
    pub edition: Edition,
    /// The file's lines as they stand.
    pub source: Vec<String>,
    pub lines: Vec<Line>,
    pub blocks: Vec<Block>,
    /// The reason that is expected, and its line.
    pub reason: Option<(usize, Stop)>,
}

/// Where a line's bytes stand in the trace, in one turn of its block.
pub struct Place {
    pub line: usize,
    pub bytes: Range<usize>,
}

impl Text {
    /// A line without its expectation and its comment.
    pub fn code(&self, number: usize) -> &str {
        let (code, _) = without_comment(&self.source[number - 1]);
        code.split("=>").next().unwrap_or("").trim_end()
    }

    pub fn comment(&self, number: usize) -> Option<&str> {
        without_comment(&self.source[number - 1]).1
    }

    /// Every line in the order of its bytes, as often as it stands there.
    fn unrolled(&self) -> impl Iterator<Item = usize> + '_ {
        self.blocks
            .iter()
            .flat_map(|block| (0..block.turns).flat_map(|_| block.lines.clone()))
    }

    /// The trace in pieces, as long as it may be.
    pub fn pieces(&self) -> impl Iterator<Item = &[u8]> {
        self.unrolled().map(|line| &self.lines[line].bytes[..])
    }

    /// The trace and the place of each line in it; nothing if it has more bytes than this.
    pub fn placed(&self, most: usize) -> Option<(Vec<u8>, Vec<Place>)> {
        let (mut bytes, mut places) = (Vec::new(), Vec::new());
        for line in self.unrolled() {
            let start = bytes.len();
            bytes.extend_from_slice(&self.lines[line].bytes);
            if bytes.len() > most {
                return None;
            }
            places.push(Place {
                line,
                bytes: start..bytes.len(),
            });
        }
        Some((bytes, places))
    }
}

/// The records that end in each place, in the order in which they are played.
pub fn ending(places: &[Place], records: &[Range<usize>]) -> Vec<Vec<usize>> {
    let mut ending = vec![Vec::new(); places.len()];
    for (record, bytes) in records.iter().enumerate() {
        let place = places.partition_point(|place| place.bytes.end < bytes.end);
        ending[place].push(record);
    }
    ending
}

/// The file's lines, without a byte order mark.
fn lines_of(bytes: &[u8]) -> impl Iterator<Item = &[u8]> {
    let bytes = bytes.strip_prefix(b"\xEF\xBB\xBF").unwrap_or(bytes);
    let bytes = bytes.strip_suffix(b"\n").unwrap_or(bytes);
    bytes
        .split(|b| *b == b'\n')
        .map(|line| line.strip_suffix(b"\r").unwrap_or(line))
}

/// A line's text. What could hide a record from whoever reads the file is refused, in comments too:
/// another line break than the usual ones, or bytes that each editor shows as it likes.
fn text_of(line: &[u8]) -> Result<&str, String> {
    let text = std::str::from_utf8(line).map_err(|e| {
        let byte = line[e.valid_up_to()];
        format!("the byte {byte:02X}h is not UTF-8: save the file as UTF-8")
    })?;
    match text.chars().find(|c| is_hidden(*c)).map(u32::from) {
        Some(c) => Err(format!(
            "the character U+{c:04X} has no place in a text: take it out"
        )),
        None => Ok(text),
    }
}

/// Controls other than the tab, separators of lines, and what has no width or turns the direction.
fn is_hidden(c: char) -> bool {
    c.is_control() && c != '\t'
        || matches!(c, '\u{AD}' | '\u{200B}'..='\u{200F}' | '\u{2028}'..='\u{202E}')
        || matches!(c, '\u{2060}'..='\u{2069}' | '\u{FEFF}')
}

/// The text before a comment, and the comment.
fn without_comment(line: &str) -> (&str, Option<&str>) {
    match line.split_once('#') {
        Some((code, comment)) => (code, Some(comment)),
        None => (line, None),
    }
}

/// A text's lines. It is of the edition that it says, which has to be the one that is asked for, if
/// any is; and of the one asked for, or else the 486 edition, where it says none.
pub fn parse(bytes: &[u8], asked: Option<Edition>) -> Result<Text, Vec<Problem>> {
    let (mut problems, mut reading) = (Vec::new(), Reading::default());
    reading.asked = asked;
    reading.text.edition = asked.unwrap_or_default();
    for (index, line) in lines_of(bytes).enumerate() {
        let read = text_of(line).and_then(|line| reading.line(index + 1, line));
        if let Err(what) = read {
            problems.push(Problem::at(index + 1, what));
        }
    }
    if let Some(open) = &reading.open {
        problems.push(Problem::at(open.line, "`repeat` without `end-repeat`"));
    }
    for group in &reading.groups {
        problems.push(Problem::at(group.line, "`group` without `end-group`"));
    }
    if !problems.is_empty() {
        problems.sort_by_key(|p| p.line);
        return Err(problems);
    }
    reading.close(1, None);
    Ok(reading.text)
}

/// A `repeat` whose end has not come yet.
struct Open {
    line: usize,
    turns: usize,
    /// Whether a record or a group was named in it, rightly or not.
    holds: bool,
    /// How many groups it stands in.
    level: usize,
}

/// A `group` whose end has not come yet.
struct OpenGroup {
    line: usize,
    /// Its place among the text's lines.
    head: usize,
    /// Bytes of what it holds.
    size: usize,
}

#[derive(Default)]
struct Reading {
    text: Text,
    open: Option<Open>,
    /// Each of them in the one before.
    groups: Vec<OpenGroup>,
    asked: Option<Edition>,
    /// The line that says the edition.
    said: Option<usize>,
}

impl Reading {
    fn line(&mut self, number: usize, line: &str) -> Result<(), String> {
        self.text.source.push(line.into());
        let (code, _) = without_comment(line);
        let (left, right) = match code.split_once("=>") {
            Some((left, right)) => (left, Some(right.split_whitespace().collect::<Vec<_>>())),
            None => (code, None),
        };
        let words: Vec<&str> = left.split_whitespace().collect();
        if words.is_empty() && right.is_none() {
            return Ok(());
        }
        if self.text.reason.is_some() {
            return Err("nothing may follow the reason for stopping".into());
        }
        if words.contains(&"->") {
            return Err("an expectation stands behind `=>`, as `=> 6 00000041`".into());
        }
        let Some(name) = words.first().map(|w| w.to_ascii_lowercase()) else {
            return self.reason(number, &right.unwrap_or_default());
        };
        // With an error too it does what it says, so that the lines after it are judged rightly.
        let done = match name.as_str() {
            "edition" => self.edition(number, &words),
            "repeat" => self.repeat(number, &words),
            "end-repeat" => self.end_repeat(number, &words),
            "group" => self.group(number, &words),
            "end-group" => self.end_group(&words),
            _ => return self.record(number, &words, right.as_deref()),
        };
        match right {
            Some(_) => Err(format!("`{name}` has no expectation")),
            None => done,
        }
    }

    fn edition(&mut self, number: usize, words: &[&str]) -> Result<(), String> {
        if let Some(line) = self.said.replace(number) {
            return Err(format!("line {line} says the edition already"));
        }
        if self.open.is_some() || !self.text.lines.is_empty() {
            return Err(
                "`edition` stands before the first record, raw, repeat or group line".into(),
            );
        }
        let edition = match words[1..] {
            [word] => Edition::named(word)?,
            _ => return Err("`edition` takes one name: mii or 486".into()),
        };
        self.text.edition = edition;
        match self.asked.filter(|asked| *asked != edition) {
            Some(asked) => Err(format!(
                "the text is of the {}, but --edition says {}",
                edition.title(),
                asked.word()
            )),
            None => Ok(()),
        }
    }

    fn reason(&mut self, number: usize, words: &[&str]) -> Result<(), String> {
        let stop = match words {
            [word] => Stop::named(word),
            _ => None,
        };
        let stop =
            stop.ok_or("after `=>` alone stands the reason: end, limit, torn, bad or long")?;
        match (&self.open, &self.groups[..]) {
            (Some(_), _) => Err("the reason stands inside a repeat".into()),
            (None, [_, ..]) => Err("the reason stands inside a group".into()),
            (None, []) => {
                self.text.reason = Some((number, stop));
                Ok(())
            }
        }
    }

    fn repeat(&mut self, number: usize, words: &[&str]) -> Result<(), String> {
        if let Some(open) = &self.open {
            return Err(format!("a repeat is open since line {}", open.line));
        }
        self.close(1, None);
        let turns = match words[1..] {
            [count] => parse_number(count, 16),
            _ => Err("`repeat` takes one number".into()),
        };
        self.open = Some(Open {
            line: number,
            turns: *turns.as_ref().unwrap_or(&1) as usize,
            holds: false,
            level: self.groups.len(),
        });
        match turns? {
            0 => Err("`repeat 0` plays nothing: take its lines out".into()),
            _ => Ok(()),
        }
    }

    fn end_repeat(&mut self, number: usize, words: &[&str]) -> Result<(), String> {
        let open = self.open.take().ok_or("no repeat is open")?;
        self.close(open.turns, Some((open.line, number)));
        if let Some(group) = self.groups.get(open.level) {
            let line = group.line;
            self.groups.truncate(open.level);
            return Err(format!("a group in this repeat is open since line {line}"));
        }
        match words {
            [_] if !open.holds => Err("this repeat holds no record".into()),
            [_] => Ok(()),
            _ => Err("`end-repeat` takes nothing".into()),
        }
    }

    fn group(&mut self, number: usize, words: &[&str]) -> Result<(), String> {
        self.hold();
        let count = match words[1..] {
            [count] => parse_number(count, 16),
            _ => Err("`group` takes one number".into()),
        };
        let mut bytes = vec![0; GROUP_HEAD];
        bytes[2..4].copy_from_slice(&GROUP.to_le_bytes());
        bytes[4..].copy_from_slice(&(*count.as_ref().unwrap_or(&1) as u16).to_le_bytes());
        let line = Line {
            number,
            bytes,
            form: Form::Group,
            expected: None,
        };
        let head = self.text.lines.len();
        self.push(line);
        self.groups.push(OpenGroup {
            line: number,
            head,
            size: 0,
        });
        count.map(drop)
    }

    fn end_group(&mut self, words: &[&str]) -> Result<(), String> {
        let level = self.groups.len();
        if let Some(open) = self.open.as_ref().filter(|open| open.level == level) {
            return Err(format!("a repeat is open since line {}", open.line));
        }
        let group = self.groups.pop().ok_or("no group is open")?;
        self.count(group.size);
        let size = GROUP_HEAD - 2 + group.size;
        let length = u16::try_from(size).map_err(|_| {
            let line = group.line;
            format!("the group of line {line} has the length {size}, and two bytes can't say it")
        })?;
        self.text.lines[group.head].bytes[..2].copy_from_slice(&length.to_le_bytes());
        match words {
            [_] => Ok(()),
            _ => Err("`end-group` takes nothing".into()),
        }
    }

    /// Counts bytes for the group that they stand in, if they do: in each turn of a repeat in it.
    fn count(&mut self, bytes: usize) {
        let level = self.groups.len();
        let open = self.open.as_ref().filter(|open| open.level == level);
        let turns = open.map_or(1, |open| open.turns);
        if let Some(group) = self.groups.last_mut() {
            group.size += turns * bytes;
        }
    }

    /// The open repeat holds a record or a group.
    fn hold(&mut self) {
        if let Some(open) = &mut self.open {
            open.holds = true;
        }
    }

    fn push(&mut self, line: Line) {
        self.count(line.bytes.len());
        self.text.lines.push(line);
    }

    /// The lines since the last block are one, if there are any.
    fn close(&mut self, turns: usize, repeat: Option<(usize, usize)>) {
        let blocks = &mut self.text.blocks;
        let first = blocks.last().map_or(0, |block| block.lines.end);
        let lines = first..self.text.lines.len();
        if !lines.is_empty() {
            let first_place = blocks.last().map_or(0, Block::next_place);
            blocks.push(Block {
                lines,
                turns,
                repeat,
                first_place,
            });
        }
    }

    fn record(
        &mut self,
        number: usize,
        words: &[&str],
        right: Option<&[&str]>,
    ) -> Result<(), String> {
        self.hold();
        let form = match words[0].eq_ignore_ascii_case("raw") {
            true => Form::Raw,
            false => Form::Record,
        };
        let line = Line {
            number,
            bytes: record(words, self.text.edition)?,
            form,
            expected: right.map(expected).transpose()?,
        };
        self.push(line);
        Ok(())
    }
}

/// What a line expects: answers with commas between them, each with how many times it comes where
/// that is said. It comes once where it isn't, and the last of them then as often as there are records.
fn expected(words: &[&str]) -> Result<Expected, String> {
    let joined = words.join(" ");
    let (mut stretches, mut open) = (Vec::new(), true);
    for part in joined.split(',') {
        let mut words: Vec<&str> = part.split_whitespace().collect();
        let times = words.last().and_then(|word| word.strip_prefix('x'));
        open = times.is_none();
        let times = match times {
            Some(times) => {
                words.pop();
                let number = times
                    .parse()
                    .ok()
                    .filter(|n: &usize| n.to_string() == times);
                let number = number.filter(|n| (1..=RECORD_LIMIT).contains(n));
                number.ok_or_else(|| {
                    let times = quoted(times);
                    format!("{times} times: write x1 to x{RECORD_LIMIT}, in decimal")
                })?
            }
            None => 1,
        };
        stretches.push((answer(&words)?, times));
    }
    Ok(Expected { stretches, open })
}

/// An answer, as it is printed: the answer's number, and the value in eight hex digits, which
/// may be left out where it is zero.
fn answer(words: &[&str]) -> Result<Answer, String> {
    let (number, value) = match words {
        [number] => (*number, "00000000"),
        [number, value] => (*number, *value),
        _ => return Err("after `=>` stands the answer as it is printed: `0`, `6 00000041`".into()),
    };
    let number = (0..=12)
        .find(|n: &u8| n.to_string() == number)
        .ok_or_else(|| format!("{} is no answer: write one of 0 to 12", quoted(number)))?;
    let lowercase = !value.bytes().any(|b| b.is_ascii_uppercase());
    let value = hex(value, 8).filter(|_| lowercase).ok_or_else(|| {
        let value = quoted(value);
        format!("the value {value} is not eight lowercase hex digits")
    })?;
    if number != 6 && value != 0 {
        return Err(format!("answer {number} carries no value: only 6 does"));
    }
    Ok((number, value as u32))
}
