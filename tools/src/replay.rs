//! The program behind tools/replay: plays traces on the proved library, and shows what was answered.

#![allow(dead_code)] // the modules are those of tools/trace too

mod differences;
mod edition;
mod files;
mod form;
mod options;
mod output;
mod played;
mod report;
#[path = "../../include/rostuvlad.rs"]
mod rostuvlad;
mod show;
mod text;
mod words;

use differences::{differences, other_reason, Tally};
use edition::Edition;
use files::{is_text, name_of, place_of, read_most, read_text, read_trace, reason_of};
use form::INPUT_LIMIT;
use options::{Options, Request};
use output::{tell, Output};
use played::{play, Memories};
use report::Report;
use std::ffi::{OsStr, OsString};
use std::fs;
use std::process::exit;
use text::Text;

const HELP: &str = include_str!("replay.help");
/// Bytes of each memory, as the program `replay` has them.
const MEMORY: usize = 65_536;
const _: () = assert!(MEMORY == rostuvlad::MANAGEMENT_SIZE && MEMORY <= rostuvlad::LARGEST_MAIN);
const _: () = assert!(form::RECORD_LIMIT == rostuvlad::RECORD_LIMIT);

/// A memory at the start: an image, filled up with zeros, or zeros alone.
fn image(path: Option<&OsString>) -> Result<Vec<u8>, String> {
    let mut bytes = Vec::new();
    if let Some(path) = path {
        bytes = read_most(path, MEMORY)?;
        if bytes.len() > MEMORY {
            let name = name_of(path);
            return Err(format!(
                "{name}: longer than the {MEMORY} bytes of a memory"
            ));
        }
    }
    bytes.resize(MEMORY, 0);
    Ok(bytes)
}

/// Writes an image beside its file and puts it in its place when it is whole, so that a full disk
/// leaves what was there. A device or a pipe is written as it is.
fn save(path: Option<&OsString>, bytes: &[u8]) -> Result<(), String> {
    let Some(path) = path else { return Ok(()) };
    let written = match fs::metadata(path) {
        Ok(found) if !found.is_file() => fs::write(path, bytes),
        _ => {
            let path = place_of(path);
            let mut part = path.clone().into_os_string();
            part.push(format!(".{}.part", std::process::id()));
            let written = fs::write(&part, bytes).and_then(|()| fs::rename(&part, &path));
            written.inspect_err(|_| drop(fs::remove_file(&part)))
        }
    };
    written.map_err(|e| format!("{}: {}", name_of(path), reason_of(&e)))
}

/// A trace as text, whatever form it has: that of a binary one is what `tools/trace text` shows.
/// There is none of a binary one that is too long to be played.
fn text_of(path: &OsStr, asked: Option<Edition>) -> Result<Option<Text>, String> {
    let (name, bytes) = (name_of(path), read_trace(path)?);
    if is_text(&bytes) {
        return read_text(&name, &bytes, asked).map(Some);
    }
    if bytes.len() > INPUT_LIMIT {
        return Ok(None);
    }
    let text = show::show_trace(&bytes, asked.unwrap_or_default());
    read_text(&name, text.as_bytes(), asked).map(Some)
}

/// Replays a trace, and tells how many records it has, how much it expects and how much differs.
fn replay(path: &OsStr, o: &Options, start: &Memories, out: &mut Output) -> Result<Tally, String> {
    let name = name_of(path);
    let text = text_of(path, o.edition)?;
    let edition = text.as_ref().map(|text| text.edition).or(o.edition);
    let edition = edition.unwrap_or_default();
    let mut memories = start.clone();
    let played = play(&name, text.as_ref(), edition, &mut memories)?;
    let text = text.unwrap_or_default();
    let differences = differences(&text, &played);
    let tally = Tally::of(&text, &played, &differences);
    let lines = differences.iter().map(|difference| difference.show(&text));
    let lines = lines.chain(other_reason(&text, &played));
    let differing = lines.map(|line| format!("{name}:{line}"));
    let reason = played.stop.word();
    if o.lines {
        for (answer, value) in played.records().map(|record| played.answer(record)) {
            out.line(&format!("{answer} {value:08x}"));
        }
        out.line(reason);
        differing.for_each(|line| tell(&line));
    } else {
        if o.quiet {
            differing.for_each(|line| out.line(&line));
        } else {
            let mut report = Report {
                text: &text,
                played: &played,
                out,
            };
            report.show();
        }
        let edition = match edition {
            Edition::Cx486 => String::new(),
            Edition::Mii => format!(" ({})", edition.title()),
        };
        out.line(&format!("{name}{edition}: {}, {reason}", tally.words()));
    }
    save(o.save_main.as_ref(), &memories.main)?;
    save(o.save_management.as_ref(), &memories.management)?;
    Ok(tally)
}

fn run(o: &Options, out: &mut Output) -> Result<i32, String> {
    let start = Memories {
        main: image(o.main.as_ref())?,
        management: image(o.management.as_ref())?,
    };
    let several = o.traces.len() > 1;
    let (mut all, mut faults) = (Tally::default(), 0);
    for path in &o.traces {
        if several && !o.quiet {
            out.line(&format!("== {}", name_of(path)));
        }
        match replay(path, o, &start, out) {
            Ok(tally) => all.add(&tally),
            Err(problem) => {
                // What was shown so far comes first where both go to one place.
                out.close();
                tell(&problem);
                faults += 1;
            }
        }
    }
    if several {
        let traces = o.traces.len();
        out.line(&format!(
            "{traces} traces: {}, {faults} at fault",
            all.words()
        ));
    }
    Ok(match (faults, all.differ) {
        (0, 0) => 0,
        (0, _) => 1,
        _ => 2,
    })
}

fn main() {
    let mut out = Output::new("tools/replay");
    let done = match options::parsed(std::env::args_os().skip(1)) {
        Ok(Request::Help) => {
            out.put(HELP.as_bytes());
            Ok(0)
        }
        Ok(Request::Replay(o)) => run(&o, &mut out),
        Err(problem) => Err(format!("tools/replay: {problem}")),
    };
    out.close();
    exit(done.unwrap_or_else(|problem| {
        tell(&problem);
        2
    }))
}
