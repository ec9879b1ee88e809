//! The program behind tools/trace: a trace's text to bytes, bytes to text, and the output that a
//! text expects. It knows the form of records only, and nothing of what a step does.

#![allow(dead_code)] // the modules are those of tools/replay too

mod edition;
mod files;
mod form;
mod output;
mod show;
mod text;
mod words;

use edition::Edition;
use files::{is_text, listed, name_of, read_text, read_trace, TEXT_LIMIT};
use form::{framing, Stop, INPUT_LIMIT};
use output::{tell, Output};
use std::collections::BTreeMap;
use std::ffi::OsString;
use std::process::exit;
use text::{ending, Answer, Place, Problem, Text};

const HELP: &str = include_str!("trace.help");

fn fail(problem: &str) -> ! {
    tell(problem);
    exit(2)
}

/// The text of a file that has to be one.
fn text_in(name: &str, bytes: &[u8]) -> Result<Text, String> {
    if is_text(bytes) {
        return read_text(name, bytes, None);
    }
    Err(format!(
        "{name}: a binary trace, not a text: `tools/trace text FILE` shows it as text"
    ))
}

/// The output that the text expects. Each record that is played has to end in a line with an
/// expectation, and each expectation to stand on a line where one ends, in every turn.
fn expectation(text: &Text) -> Result<String, Vec<Problem>> {
    let (out, stop, mut problems) = match text.placed(INPUT_LIMIT) {
        Some((bytes, places)) => played(text, &bytes, &places),
        None => (String::new(), Stop::Long, unplayed(text)),
    };
    match text.reason {
        Some((_, reason)) if reason == stop => (),
        Some((line, reason)) => {
            let (stop, reason) = (stop.word(), reason.word());
            let what = format!("the records stop with {stop}, not {reason}");
            problems.push(Problem::at(line, what));
        }
        None => {
            let what = "the last line, `=> end` or another reason, is missing";
            problems.push(Problem::at(text.source.len(), what));
        }
    }
    if problems.is_empty() {
        Ok(format!("{out}{}\n", stop.word()))
    } else {
        Err(problems)
    }
}

const UNPLAYED: &str = "no record that is played ends here";

/// Nothing of a trace that is too long is played.
fn unplayed(text: &Text) -> Vec<Problem> {
    let expecting = text.lines.iter().filter(|line| line.expected.is_some());
    expecting
        .map(|line| Problem::at(line.number, UNPLAYED))
        .collect()
}

fn played(text: &Text, bytes: &[u8], places: &[Place]) -> (String, Stop, Vec<Problem>) {
    let framing = framing(bytes);
    // In the order in which the records are played, which groups make another than that of the lines.
    let mut answers: Vec<Option<Answer>> = vec![None; framing.records.len()];
    // By line, since a line of a repeat is at fault once and not in each turn.
    let mut problems = BTreeMap::new();
    for (place, records) in places.iter().zip(ending(places, &framing.records)) {
        let line = &text.lines[place.line];
        match (&line.expected, records.len()) {
            (Some(_), 0) => {
                problems.insert(line.number, UNPLAYED.into());
            }
            (Some(expected), count) if !expected.is_count(count) => {
                let wanted = expected.count();
                let what = format!("records that end here: {count}, expected {wanted}");
                problems.insert(line.number, what);
            }
            (Some(expected), _) => {
                for (record, answer) in records.into_iter().zip(expected.answers()) {
                    answers[record] = Some(answer);
                }
            }
            (None, 0) => (),
            (None, _) => {
                let what = "a record ends here, and nothing is expected".into();
                problems.insert(line.number, what);
            }
        }
    }
    let answers = answers.into_iter().flatten();
    let out = answers.map(|(answer, value)| format!("{answer} {value:08x}\n"));
    let problems = problems.into_iter();
    let problems = problems.map(|(line, what): (usize, String)| Problem::at(line, what));
    (out.collect(), framing.stop, problems.collect())
}

/// What of a file goes to the output.
enum Asked {
    Bytes,
    Text(Edition),
    Expectation,
    Edition,
}

fn asked(words: &[Option<&str>]) -> Result<Asked, String> {
    match words {
        [Some("bytes"), _] => Ok(Asked::Bytes),
        [Some("text"), _] => Ok(Asked::Text(Edition::default())),
        [Some("text"), Some("--edition"), Some(word), _] => Edition::named(word).map(Asked::Text),
        [Some("text"), Some(option), _] if option.starts_with("--edition=") => {
            Edition::named(&option["--edition=".len()..]).map(Asked::Text)
        }
        [Some("expect"), _] => Ok(Asked::Expectation),
        [Some("edition"), _] => Ok(Asked::Edition),
        _ => {
            Err("not `bytes FILE`, `text FILE`, `expect FILE` or `edition FILE`: see --help".into())
        }
    }
}

fn put(asked: Asked, name: &str, bytes: &[u8], out: &mut Output) -> Result<(), String> {
    match asked {
        Asked::Bytes => text_in(name, bytes)?
            .pieces()
            .for_each(|piece| out.put(piece)),
        Asked::Text(edition) => put_text(name, bytes, edition, out)?,
        Asked::Expectation => {
            let expected = expectation(&text_in(name, bytes)?);
            let expected = expected.map_err(|problems| listed(name, &problems))?;
            out.put(expected.as_bytes());
        }
        Asked::Edition => out.line(text_in(name, bytes)?.edition.word()),
    }
    Ok(())
}

fn put_text(name: &str, bytes: &[u8], edition: Edition, out: &mut Output) -> Result<(), String> {
    if !bytes.is_empty() && is_text(bytes) {
        tell(&format!(
            "{name}: looks like text; shown as the bytes of a trace"
        ));
    }
    let text = show::show_trace(bytes, edition);
    if bytes.len().max(text.len()) > TEXT_LIMIT {
        return Err(format!(
            "{name}: it or its text is longer than {TEXT_LIMIT} bytes"
        ));
    }
    out.put(text.as_bytes());
    Ok(())
}

fn main() {
    let args: Vec<OsString> = std::env::args_os().skip(1).collect();
    let words: Vec<Option<&str>> = args.iter().map(|word| word.to_str()).collect();
    let mut out = Output::new("tools/trace");
    if let [Some("--help" | "-h")] = words[..] {
        out.put(HELP.as_bytes());
        return out.close();
    }
    let asked = asked(&words).unwrap_or_else(|problem| fail(&format!("tools/trace: {problem}")));
    let path = &args[args.len() - 1];
    let done = read_trace(path).and_then(|bytes| put(asked, &name_of(path), &bytes, &mut out));
    out.close();
    done.unwrap_or_else(|problem| fail(&problem));
}
