//! Files that are read, and how a text is told from a binary trace.

use crate::edition::Edition;
use crate::form::first_item;
use crate::text::{parse, Problem, Text};
use std::ffi::OsStr;
use std::fs::File;
use std::io::{self, Read};
use std::path::{Path, PathBuf};

/// No text of a trace is longer.
pub const TEXT_LIMIT: usize = 16 << 20;

/// What the system says, without its number.
pub fn reason_of(e: &io::Error) -> String {
    let whole = e.to_string();
    match whole.split_once(" (os error") {
        Some((said, _)) => said.into(),
        None => whole,
    }
}

/// A file's name for messages, on one line; `-` is standard input.
pub fn name_of(path: &OsStr) -> String {
    let shown = |c: char| {
        if c.is_control() {
            c.escape_default().to_string()
        } else {
            c.to_string()
        }
    };
    match path.to_string_lossy().as_ref() {
        "-" => "standard input".into(),
        "" => "(no name)".into(),
        name => name.chars().map(shown).collect(),
    }
}

/// Where a file is or would be, however it is named.
pub fn place_of(path: &OsStr) -> PathBuf {
    let path = Path::new(path);
    let folder = match path.parent() {
        Some(folder) if folder != Path::new("") => folder,
        _ => Path::new("."),
    };
    path.canonicalize().unwrap_or_else(|_| {
        let folder = folder.canonicalize().unwrap_or_else(|_| folder.into());
        folder.join(path.file_name().unwrap_or_default())
    })
}

/// A file's bytes, cut after one more than this.
pub fn read_most(path: &OsStr, most: usize) -> Result<Vec<u8>, String> {
    let source: io::Result<Box<dyn Read>> = if path == "-" {
        Ok(Box::new(io::stdin().lock()))
    } else {
        File::open(path).map(|file| Box::new(file) as Box<dyn Read>)
    };
    let mut bytes = Vec::new();
    source
        .and_then(|source| source.take(most as u64 + 1).read_to_end(&mut bytes))
        .map_err(|e| format!("{}: {}", name_of(path), reason_of(&e)))?;
    Ok(bytes)
}

/// A file that holds a trace, in either form; it is cut after one byte more than a text may have.
pub fn read_trace(path: &OsStr) -> Result<Vec<u8>, String> {
    read_most(path, TEXT_LIMIT)
}

fn is_control(byte: u8) -> bool {
    byte < b' ' && !matches!(byte, b'\t' | b'\n' | b'\r')
}

/// A text that an editor saved in two bytes a character: by its byte order mark, or since every
/// other byte is 0.
fn is_utf_16(bytes: &[u8]) -> bool {
    let head = &bytes[..bytes.len().min(64)];
    let all = |is: fn(&[u8]) -> bool| head.len() >= 4 && head.chunks_exact(2).all(is);
    bytes.starts_with(b"\xFF\xFE")
        || bytes.starts_with(b"\xFE\xFF")
        || all(|pair| pair[1] == 0 && !is_control(pair[0]))
        || all(|pair| pair[0] == 0 && !is_control(pair[1]))
}

/// Whether an expectation stands somewhere, also in characters of several bytes.
fn expects(bytes: &[u8]) -> bool {
    let mut filled = bytes.iter().filter(|byte| **byte != 0).peekable();
    while let Some(byte) = filled.next() {
        if *byte == b'=' && filled.peek() == Some(&&b'>') {
            return true;
        }
    }
    false
}

/// Whether the bytes are a trace's text. A binary trace begins with a record or the head of a group, or it
/// has no expectation and one byte in four at the least is none that a text has. A text that was damaged is
/// still taken for a text, so that its lines are judged.
pub fn is_text(bytes: &[u8]) -> bool {
    let strange = |part: std::str::Utf8Chunk| {
        let controls = part.valid().bytes().filter(|byte| is_control(*byte));
        controls.count() + part.invalid().len()
    };
    let count: usize = bytes.utf8_chunks().map(strange).sum();
    let few = count * 4 < bytes.len().max(1);
    first_item(bytes).is_err() && (few || is_utf_16(bytes) || expects(bytes))
}

/// A text's lines, or what is wrong with it, another edition than the one asked for too.
pub fn read_text(name: &str, bytes: &[u8], asked: Option<Edition>) -> Result<Text, String> {
    if is_utf_16(bytes) {
        return Err(format!("{name}: UTF-16 text: save the file as UTF-8"));
    }
    if bytes.len() > TEXT_LIMIT {
        return Err(format!("{name}: longer than {TEXT_LIMIT} bytes"));
    }
    parse(bytes, asked).map_err(|problems| listed(name, &problems))
}

/// What is wrong with a file, a line for each of the first problems.
pub fn listed(name: &str, problems: &[Problem]) -> String {
    const MOST: usize = 20;
    let line = |p: &Problem| format!("{name}:{}: {}", p.line, p.what);
    let mut lines: Vec<String> = problems.iter().take(MOST).map(line).collect();
    if problems.len() > MOST {
        lines.push(format!("{name}: {} more errors", problems.len() - MOST));
    }
    lines.join("\n")
}
