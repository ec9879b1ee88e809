//! The words after tools/replay.

use crate::edition::Edition;
use crate::files::{name_of, place_of};
use std::ffi::{OsStr, OsString};
use std::os::unix::ffi::OsStrExt;
use std::path::PathBuf;

#[derive(Default)]
pub struct Options {
    pub quiet: bool,
    pub lines: bool,
    pub edition: Option<Edition>,
    pub main: Option<OsString>,
    pub management: Option<OsString>,
    pub save_main: Option<OsString>,
    pub save_management: Option<OsString>,
    pub traces: Vec<OsString>,
}

pub enum Request {
    Help,
    Replay(Options),
}

impl Options {
    /// Where an option's file is kept, if there is such an option.
    fn file(&mut self, option: &str) -> Option<&mut Option<OsString>> {
        match option {
            "--main" => Some(&mut self.main),
            "--management" => Some(&mut self.management),
            "--save-main" => Some(&mut self.save_main),
            "--save-management" => Some(&mut self.save_management),
            _ => None,
        }
    }

    fn checked(self) -> Result<Request, String> {
        let one = self.traces.len() == 1;
        let saves = [&self.save_main, &self.save_management];
        if self.traces.is_empty() {
            return Err("no trace is named: see --help".into());
        }
        if self.traces.iter().filter(|trace| *trace == "-").count() > 1 {
            return Err("standard input is named twice".into());
        }
        if self.lines && !one {
            return Err("--lines takes one trace".into());
        }
        if saves.iter().any(|save| save.is_some()) && !one {
            return Err("--save-main and --save-management take one trace".into());
        }
        let places: Vec<PathBuf> = saves.into_iter().flatten().map(|f| place_of(f)).collect();
        if let [main, management] = &places[..] {
            if main == management {
                return Err("--save-main and --save-management name the same file".into());
            }
        }
        if self
            .traces
            .iter()
            .any(|trace| places.contains(&place_of(trace)))
        {
            return Err("an image would be saved over the trace".into());
        }
        Ok(Request::Replay(self))
    }
}

/// An option and what stands behind its `=`, if it has one.
fn split(word: &OsStr) -> (String, Option<OsString>) {
    let bytes = word.as_bytes();
    match bytes.iter().position(|b| *b == b'=') {
        Some(at) => (
            OsStr::from_bytes(&bytes[..at]).to_string_lossy().into(),
            Some(OsStr::from_bytes(&bytes[at + 1..]).into()),
        ),
        None => (word.to_string_lossy().into(), None),
    }
}

/// What an option takes, kept where it is not given twice.
fn keep<T>(kept: &mut Option<T>, value: T, option: &str) -> Result<(), String> {
    match kept.replace(value) {
        Some(_) => Err(format!("{option} is given twice")),
        None => Ok(()),
    }
}

pub fn parsed(mut words: impl Iterator<Item = OsString>) -> Result<Request, String> {
    let mut o = Options::default();
    while let Some(word) = words.next() {
        if word == "--" {
            o.traces.extend(words);
            break;
        }
        if word == "-" || !word.as_bytes().starts_with(b"-") {
            o.traces.push(word);
            continue;
        }
        let (option, given) = split(&word);
        let mut behind = |what: &str, given: Option<OsString>| {
            let taken = given.or_else(|| words.next());
            let taken = taken.filter(|taken| !taken.is_empty());
            taken.ok_or_else(|| format!("{option} lacks its {what}"))
        };
        match (option.as_str(), &given) {
            ("--help" | "-h", None) => return Ok(Request::Help),
            ("--quiet" | "-q", None) => o.quiet = true,
            ("--lines", None) => o.lines = true,
            ("--edition", _) => {
                let edition = behind("edition", given)?;
                let edition = Edition::named(&edition.to_string_lossy())?;
                keep(&mut o.edition, edition, &option)?;
            }
            _ => {
                let kept = o.file(&option).ok_or_else(|| {
                    let word = name_of(&word);
                    format!("unknown option {word}: see --help; a file of this name goes behind --")
                })?;
                let file = behind("file", given)?;
                if file == "-" {
                    return Err(format!("{option} takes a file, and not -"));
                }
                keep(kept, file, &option)?;
            }
        }
    }
    o.checked()
}
