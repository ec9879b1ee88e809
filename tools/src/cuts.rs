//! The program behind tools/cuts: makes one claim after another say less, with its own proof made
//! to fit, and tells which check notices. It works on a copy of the repository, which the command
//! makes, and leaves that copy as it was after each cut.
//!
//! Two kinds of cut:
//! - CLAIM: a closed claim that a function ensures gets a hypothesis that nothing meets, so that it
//!   says nothing. Who cites it, notices; what nobody cites could ask for anything more.
//! - RECORD.FIELD: a field is taken out of a record of specs/, and out of each place where such a
//!   record is put together. Who reads the field, notices.

use std::collections::BTreeSet;
use std::env;
use std::fs;
use std::path::{Path, PathBuf};
use std::process::{exit, Command};

struct Crate {
    name: String,
    above: Vec<String>,
}

/// A file with the text that a cut gives it.
struct Change {
    path: PathBuf,
    text: String,
}

struct Cut {
    name: String,
    changes: Result<Vec<Change>, String>,
}

fn fail(problem: &str) -> ! {
    eprintln!("tools/cuts: {problem}");
    exit(2)
}

fn read(path: &Path) -> String {
    fs::read_to_string(path).unwrap_or_else(|e| fail(&format!("{}: {e}", path.display())))
}

/// The crates in their order, each with the libraries that depend on it.
fn crates() -> Vec<Crate> {
    let text = read(Path::new("crates.txt"));
    let rows: Vec<(&str, Vec<&str>)> = text
        .lines()
        .filter_map(|l| l.split('#').next()?.split_once(':'))
        .filter_map(|(name, deps)| {
            let name = name.split_whitespace().next()?; // and not the word "staticlib"
            Some((name, deps.split_whitespace().collect()))
        })
        .collect();
    let is_library = |name: &str| Path::new("crates").join(name).join("src/lib.rt").exists();
    rows.iter()
        .map(|(name, _)| Crate {
            name: name.to_string(),
            above: rows
                .iter()
                .filter(|(other, deps)| is_library(other) && deps.contains(name))
                .map(|(other, _)| other.to_string())
                .collect(),
        })
        .collect()
}

/// The .antt files below a folder, in order.
fn files(folder: &Path) -> Vec<PathBuf> {
    let mut found = Vec::new();
    let Ok(entries) = fs::read_dir(folder) else {
        return found;
    };
    let mut paths: Vec<PathBuf> = entries.flatten().map(|e| e.path()).collect();
    paths.sort();
    for path in paths {
        if path.is_dir() {
            found.extend(files(&path));
        } else if path.extension().is_some_and(|e| e == "antt") {
            found.push(path);
        }
    }
    found
}

fn in_name(c: char) -> bool {
    c.is_alphanumeric() || "-_'".contains(c)
}

/// The text with one name in place of another, as a whole word only.
fn renamed(text: &str, old: &str, new: &str) -> String {
    let mut out = String::new();
    let mut word = String::new();
    for c in text.chars().chain(['\0']) {
        if in_name(c) {
            word.push(c);
            continue;
        }
        out.push_str(if word == old { new } else { &word });
        word.clear();
        if c != '\0' {
            out.push(c);
        }
    }
    out
}

/// The lines of a declaration from its signature on: up to the next that is not a clause of it.
fn declaration(lines: &[&str], start: usize, name: &str) -> usize {
    let mut end = start + 1;
    while end < lines.len() {
        let line = lines[end];
        let first: String = line.chars().take_while(|c| in_name(*c)).collect();
        let goes_on = line.is_empty() || line.starts_with([' ', ')', '}']);
        if !goes_on && first != name && first != "unfolding" {
            break;
        }
        end += 1;
    }
    while lines[end - 1].is_empty() {
        end -= 1;
    }
    end
}

/// The lines with a declaration renamed, and another put after it.
fn with_whole(lines: &[&str], start: usize, name: &str, whole: &str, after: &str) -> String {
    let end = declaration(lines, start, name);
    let mut out: Vec<String> = lines[..start].iter().map(|l| l.to_string()).collect();
    out.extend(lines[start..end].iter().map(|l| renamed(l, name, whole)));
    out.push(format!("\n{after}"));
    out.extend(lines[end..].iter().map(|l| l.to_string()));
    out.join("\n") + "\n"
}

/// The closed claims that functions of a crate ensure.
fn claims(folder: &Path) -> Vec<String> {
    let text = read(&folder.join("src/lib.rt"));
    let mut found = Vec::new();
    for part in text.split("    ensures ").skip(1) {
        let clause = part.split_once('{').map_or("", |(_, c)| c);
        let claim = clause.split('}').next().unwrap_or("").trim();
        let is_name = claim.chars().all(in_name) && claim.starts_with(char::is_uppercase);
        if is_name && !found.contains(&claim.to_string()) {
            found.push(claim.to_string());
        }
    }
    found
}

/// The claim under a hypothesis that nothing meets.
fn emptied(folder: &Path, claim: &str) -> Result<Vec<Change>, String> {
    let whole = format!("{claim}Whole");
    let signature = format!("abbrev pub {claim} : Type 0");
    let mut changes = Vec::new();
    for path in files(&folder.join("specs")) {
        let text = read(&path);
        let lines: Vec<&str> = text.lines().collect();
        if let Some(start) = lines.iter().position(|l| *l == signature) {
            let after = format!("{signature}\n{claim} = ⊥ → {whole}");
            let text = with_whole(&lines, start, claim, &whole, &after);
            changes.push(Change { path, text });
        }
    }
    if changes.is_empty() {
        return Err("is no definition of specs/ without arguments".to_string());
    }
    for path in files(&folder.join("proofs")) {
        let text = read(&path);
        let lines: Vec<&str> = text.lines().collect();
        let proof = |l: &&str| l.strip_suffix(&format!(" : {claim}")).map(str::to_string);
        let Some(start) = lines.iter().position(|l| proof(l).is_some()) else {
            continue;
        };
        let name = proof(&lines[start]).unwrap_or_default();
        let bare = name.strip_prefix("pub ").unwrap_or(&name).to_string();
        let after = format!("{}\n{bare} none = {bare}-whole", lines[start]);
        let text = with_whole(&lines, start, &bare, &format!("{bare}-whole"), &after);
        let text = text.replacen(
            &format!("{bare}-whole : {claim}"),
            &format!("{bare}-whole : {whole}"),
            1,
        );
        let text: Vec<String> = text
            .lines()
            .map(|l| match l.starts_with("use ") && l.contains(".specs.") {
                true => renamed(l, claim, &format!("{claim}, {whole}")),
                false => l.to_string(),
            })
            .collect();
        changes.push(Change {
            path,
            text: text.join("\n") + "\n",
        });
        return Ok(changes);
    }
    Err("has no proof of just that type".to_string())
}

/// A record of a file: where it begins, and its fields with the lines of each.
struct Record {
    name: String,
    fields: Vec<(String, usize, usize)>,
}

fn records(lines: &[&str]) -> Vec<Record> {
    let mut found = Vec::new();
    let mut at = 0;
    while at < lines.len() {
        let head = lines[at].strip_prefix("pub record ");
        at += 1;
        let Some(head) = head else { continue };
        let name: String = head.chars().take_while(|c| in_name(*c)).collect();
        let mut fields: Vec<(String, usize, usize)> = Vec::new();
        while at < lines.len() && (lines[at].starts_with(' ') || lines[at].is_empty()) {
            if let Some(field) = lines[at].strip_prefix("  pub ") {
                let field: String = field.chars().take_while(|c| in_name(*c)).collect();
                fields.push((field, at, at + 1));
            } else if lines[at].starts_with("    ") {
                if let Some(last) = fields.last_mut() {
                    last.2 = at + 1;
                }
            }
            at += 1;
        }
        found.push(Record { name, fields });
    }
    found
}

/// The place after what a bracket opens.
fn closing(text: &[char], open: usize) -> usize {
    let mut depth = 0;
    for (i, c) in text.iter().enumerate().skip(open) {
        match c {
            '{' | '(' => depth += 1,
            '}' | ')' => depth -= 1,
            _ => (),
        }
        if depth == 0 {
            return i;
        }
    }
    text.len()
}

/// The text with a field taken out of each record that is put together of just these fields.
fn without_field(text: &str, fields: &BTreeSet<String>, field: &str) -> String {
    let chars: Vec<char> = text.chars().collect();
    let word: Vec<char> = "record {".chars().collect();
    let mut out = String::new();
    let mut at = 0;
    while at < chars.len() {
        if !chars[at..].starts_with(&word) {
            out.push(chars[at]);
            at += 1;
            continue;
        }
        let open = at + word.len() - 1;
        let close = closing(&chars, open);
        let mut parts = Vec::new();
        let (mut start, mut i) = (open + 1, open + 1);
        while i < close {
            match chars[i] {
                '{' | '(' => i = closing(&chars, i),
                ';' => {
                    parts.push(chars[start..i].iter().collect::<String>());
                    start = i + 1;
                }
                _ => (),
            }
            i += 1;
        }
        let last: String = chars[start..close].iter().collect();
        if !last.trim().is_empty() {
            parts.push(last);
        }
        let name = |p: &String| {
            p.split_once(" = ")
                .map_or("", |(n, _)| n.trim())
                .to_string()
        };
        let whole = parts.iter().map(name).collect::<BTreeSet<_>>() == *fields;
        let inner: Vec<String> = parts
            .iter()
            .filter(|p| !(whole && name(p) == field))
            .map(|p| without_field(p, fields, field))
            .collect();
        out.push_str(&format!("record {{{} }}", inner.join(";")));
        at = close + 1;
    }
    out
}

fn dropped(folder: &Path, all: &[Crate]) -> Vec<Cut> {
    let mut cuts = Vec::new();
    for path in files(&folder.join("specs")) {
        let text = read(&path);
        let lines: Vec<&str> = text.lines().collect();
        for record in records(&lines) {
            let names: BTreeSet<String> = record.fields.iter().map(|f| f.0.clone()).collect();
            for (field, start, end) in &record.fields {
                let kept: Vec<&str> = [&lines[..*start], &lines[*end..]].concat();
                let mut changes = vec![Change {
                    path: path.clone(),
                    text: kept.join("\n") + "\n",
                }];
                for other in all {
                    for path in files(&Path::new("crates").join(&other.name).join("proofs")) {
                        let text = read(&path);
                        if text.contains(&format!("{field} = ")) && text.contains("record {") {
                            let less = without_field(&text, &names, field);
                            if less != without_field(&text, &names, "") {
                                changes.push(Change { path, text: less });
                            }
                        }
                    }
                }
                // Where no proof writes such a record out, the check puts it together by itself.
                cuts.push(Cut {
                    name: format!("{}.{field}", record.name),
                    changes: Ok(changes),
                });
            }
        }
    }
    cuts
}

/// What a check of a crate says: none, or its first complaint.
fn complaint(name: &str) -> Option<String> {
    let folder = Path::new("crates").join(name);
    let done = Command::new("rt").arg("check").current_dir(folder).output();
    let done = done.unwrap_or_else(|e| fail(&format!("rt: {e}")));
    if done.status.success() {
        return None;
    }
    let said =
        String::from_utf8_lossy(&done.stdout).into_owned() + &String::from_utf8_lossy(&done.stderr);
    let line = said
        .lines()
        .find(|l| l.contains(": error") || l.contains(": it is not proved "))
        .unwrap_or("no place given");
    let line = line.strip_prefix("note: ").unwrap_or(line);
    let place = line.split(": error").next().unwrap_or(line);
    let place = place.split(": it is not proved ").next().unwrap_or(place);
    Some(format!(
        "{name}/{}",
        place.strip_prefix("./").unwrap_or(place)
    ))
}

/// Makes a cut, asks the crate and those above it, and takes the cut back.
fn tried(own: &Crate, changes: &[Change]) -> String {
    let before: Vec<String> = changes.iter().map(|c| read(&c.path)).collect();
    for c in changes {
        fs::write(&c.path, &c.text).unwrap_or_else(|e| fail(&e.to_string()));
    }
    let names = [&own.name].into_iter().chain(&own.above);
    let noticed = names.into_iter().find_map(|n| complaint(n));
    for (c, text) in changes.iter().zip(before) {
        fs::write(&c.path, text).unwrap_or_else(|e| fail(&e.to_string()));
    }
    match noticed {
        Some(place) => format!("noticed, first at {place}"),
        None => "PASSES".to_string(),
    }
}

fn main() {
    let asked: Vec<String> = env::args().skip(1).collect();
    let all = crates();
    let mut passing = 0;
    let mut made = 0;
    for own in &all {
        let folder = Path::new("crates").join(&own.name);
        let wanted = |cut: &str| {
            let whole = format!("{}/{cut}", own.name);
            asked.iter().any(|a| *a == own.name || *a == whole)
        };
        if !folder.join("src/lib.rt").exists() {
            continue;
        }
        let mut cuts: Vec<Cut> = claims(&folder)
            .into_iter()
            .map(|name| Cut {
                changes: emptied(&folder, &name),
                name,
            })
            .collect();
        cuts.extend(dropped(&folder, &all));
        for cut in cuts.iter().filter(|c| wanted(&c.name)) {
            let said = match &cut.changes {
                Ok(changes) => tried(own, changes),
                Err(why) => format!("not made: it {why}"),
            };
            made += u32::from(cut.changes.is_ok());
            passing += u32::from(said == "PASSES");
            println!("{}/{}: {said}", own.name, cut.name);
        }
    }
    println!("{made} cuts made, {passing} pass");
}
