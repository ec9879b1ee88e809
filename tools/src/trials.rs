//! The trials of tools/try that take many runs, from a repository's top, where tools/replay,
//! tools/trace and the proved programs are built. Prints a line for each, and what failed.

use std::fs;
use std::io::Write;
use std::path::{Path, PathBuf};
use std::process::{exit, Command, Output, Stdio};

const RANDOM: usize = 1_000;
const DAMAGED: usize = 1_000;
/// Each edition, and its proved program.
const EDITIONS: [(&str, &str); 2] = [
    ("486", "crates/replay/out/replay"),
    ("mii", "crates/replay_mii/out/replay_mii"),
];

/// Numbers that are the same on each run, so that a failure can be looked at again.
struct Random(u64);

impl Random {
    fn below(&mut self, n: usize) -> usize {
        self.0 = self
            .0
            .wrapping_mul(6_364_136_223_846_793_005)
            .wrapping_add(1_442_695_040_888_963_407);
        (self.0 >> 33) as usize % n
    }

    fn bytes(&mut self, count: usize) -> Vec<u8> {
        (0..count).map(|_| self.below(256) as u8).collect()
    }

    fn one_of<'a, T>(&mut self, all: &'a [T]) -> &'a T {
        &all[self.below(all.len())]
    }
}

fn run(program: &str, words: &[&str], input: &[u8]) -> Output {
    let mut child = Command::new(program)
        .args(words)
        .stdin(Stdio::piped())
        .stdout(Stdio::piped())
        .stderr(Stdio::piped())
        .spawn()
        .unwrap_or_else(|e| panic!("{program}: {e}"));
    let mut to = child.stdin.take().expect("a pipe");
    let input = input.to_vec();
    let writer = std::thread::spawn(move || {
        // A program that doesn't read all of it is no failure.
        let _ = to.write_all(&input);
    });
    let output = child.wait_with_output().expect("an output");
    writer.join().expect("the input is written");
    output
}

fn replay(words: &[&str]) -> Output {
    run("target/tools/replay", words, b"")
}

/// What an outcome breaks of what holds of every input.
fn fault(output: &Output, name: &str) -> Option<String> {
    let (said, told) = (
        String::from_utf8_lossy(&output.stdout),
        String::from_utf8_lossy(&output.stderr),
    );
    let numbered = |line: &str| {
        let rest = line
            .strip_prefix(name)
            .and_then(|rest| rest.strip_prefix(':'));
        let number = rest.and_then(|rest| rest.split(':').next());
        number.is_some_and(|number| number.parse::<usize>().is_ok())
            || line.ends_with(" more errors")
            || line.ends_with(": UTF-16 text: save the file as UTF-8")
    };
    match output.status.code() {
        Some(0 | 1) if !told.is_empty() => Some(format!("said {told}")),
        Some(0 | 1)
            if !said
                .lines()
                .last()
                .is_some_and(|line| line.starts_with(name)) =>
        {
            Some("the last line is missing".into())
        }
        Some(0 | 1) => None,
        Some(2) if told.is_empty() || !told.lines().all(numbered) => Some(format!("said {told}")),
        Some(2) => None,
        status => Some(format!("status {status:?}, said {told}")),
    }
}

/// The trace's bytes as text of an edition and back, and its lines against those of the proved program.
fn binary_fault(name: &str, bytes: &[u8], (edition, program): (&str, &str)) -> Option<String> {
    let text = run(
        "target/tools/trace",
        &["text", "--edition", edition, name],
        b"",
    );
    let back = run("target/tools/trace", &["bytes", "-"], &text.stdout);
    if back.stdout != bytes {
        return Some("its text has other bytes".into());
    }
    let lines = replay(&["--lines", "--edition", edition, name]);
    let proved = run(program, &[], bytes);
    match lines.status.code() {
        Some(0) if lines.stdout == proved.stdout => None,
        // Taken for a text without lines.
        Some(0) if bytes.iter().all(u8::is_ascii_whitespace) => None,
        // Taken for a text with an error: the program has no record of it either.
        Some(2) if !proved.stdout.contains(&b' ') => None,
        _ => Some("its lines are not those of the proved program".into()),
    }
}

fn random_bytes(random: &mut Random, traces: &[Vec<u8>]) -> Vec<u8> {
    if random.below(2) == 0 {
        let count = random.below(300);
        return random.bytes(count);
    }
    // Pieces of true traces, so that records are played too.
    let mut bytes = random.one_of(traces).clone();
    bytes.truncate(4_000);
    if random.below(3) == 0 {
        bytes = in_groups(random, bytes);
        if random.below(2) == 0 {
            return bytes;
        }
    }
    for _ in 0..random.below(4) {
        if !bytes.is_empty() {
            let at = random.below(bytes.len());
            bytes[at] = random.below(256) as u8;
        }
    }
    bytes.truncate(random.below(bytes.len() + 1));
    bytes
}

/// The bytes in groups, one in the other, with something before and behind them.
fn in_groups(random: &mut Random, mut bytes: Vec<u8>) -> Vec<u8> {
    let wake = [2, 0, 10, 0];
    for _ in 0..1 + random.below(9) {
        let count = match random.below(30) {
            0 => 0,
            _ => *random.one_of(&[1, 1, 2, 3, 10, 300, 65_535]),
        };
        bytes = grouped(count, &bytes);
        if random.below(3) == 0 {
            bytes.extend(wake);
        }
    }
    bytes.splice(0..0, wake);
    bytes.extend(*random.one_of(&[&[][..], &[2, 0, 9, 0], &[2]]));
    bytes
}

/// A group with this list.
fn grouped(count: u16, list: &[u8]) -> Vec<u8> {
    let mut bytes = (list.len() as u16 + 4).to_le_bytes().to_vec();
    bytes.extend([16, 0]);
    bytes.extend(count.to_le_bytes());
    bytes.extend(list);
    bytes
}

fn damaged(random: &mut Random, text: &[u8]) -> Vec<u8> {
    let mut bytes = text.to_vec();
    for _ in 0..1 + random.below(4) {
        let at = random.below(bytes.len().max(1));
        let to = (at + random.below(80)).min(bytes.len());
        match random.below(7) {
            0 if !bytes.is_empty() => bytes[at] = random.below(256) as u8,
            1 if !bytes.is_empty() => bytes[at] = b"#=>h: \n9"[random.below(8)],
            2 if !bytes.is_empty() => drop(bytes.remove(at)),
            3 => bytes.insert(at, random.below(256) as u8),
            4 => drop(bytes.drain(at..to)),
            5 => drop(bytes.splice(at..at, vec![0; random.below(2_000)])),
            _ => {
                let piece = bytes[at..to].to_vec();
                let at = random.below(bytes.len() + 1);
                bytes.splice(at..at, piece);
            }
        }
    }
    bytes
}

/// Whether a line expects something.
fn expects(text: &[u8]) -> bool {
    let expecting = |line: &[u8]| {
        let code = line.split(|byte| *byte == b'#').next().unwrap_or(line);
        code.windows(2).any(|pair| pair == b"=>")
    };
    text.split(|byte| *byte == b'\n').any(expecting)
}

/// Another answer or reason that could stand in the place of this one.
fn other(part: &str) -> String {
    let words: Vec<&str> = part.split_whitespace().collect();
    match words[..] {
        ["end"] => "bad".into(),
        ["limit" | "torn" | "bad" | "long"] => "end".into(),
        ["6", value] => format!(
            "6 {}{}",
            if value.starts_with('0') { '1' } else { '0' },
            &value[1..]
        ),
        ["12"] => "11".into(),
        [number] => (number.parse::<u32>().expect("an answer") + 1).to_string(),
        _ => panic!("no answer: {part}"),
    }
}

/// What stands behind `=>` with one answer changed, or how many times it comes.
fn others(right: &str) -> Vec<String> {
    let parts: Vec<&str> = right.split(',').map(str::trim).collect();
    let mut all = Vec::new();
    for (index, part) in parts.iter().enumerate() {
        let with = |part: String| {
            let mut parts: Vec<String> = parts.iter().map(|part| part.to_string()).collect();
            parts[index] = part;
            parts.join(", ")
        };
        match part.rsplit_once(" x") {
            Some((answer, times)) => {
                let times: usize = times.trim().parse().expect("a number of times");
                let less = if times < 2 { 2 } else { times - 1 };
                all.push(with(format!("{} x{times}", other(answer))));
                all.push(with(format!("{answer} x{less}")));
            }
            None => all.push(with(other(part))),
        }
    }
    all
}

/// The text with one expectation changed to another that could stand there, for each that it has.
fn spoilt(text: &str) -> Vec<(usize, String)> {
    let lines: Vec<&str> = text.lines().collect();
    let mut all = Vec::new();
    for (index, line) in lines.iter().enumerate() {
        let code = line.split('#').next().unwrap_or("");
        let Some((left, right)) = code.split_once("=>") else {
            continue;
        };
        for other in others(right) {
            let mut changed = lines.clone();
            let line = format!("{left}=> {other}");
            changed[index] = &line;
            all.push((index + 1, changed.join("\n")));
        }
    }
    all
}

fn files(folder: &str) -> Vec<PathBuf> {
    let entries = fs::read_dir(folder).unwrap_or_else(|e| panic!("{folder}: {e}"));
    let mut all: Vec<PathBuf> = entries.map(|e| e.expect("a file").path()).collect();
    all.sort();
    all
}

fn read(path: &Path) -> Vec<u8> {
    fs::read(path).unwrap_or_else(|e| panic!("{}: {e}", path.display()))
}

/// Prints what came of a trial.
fn tell(what: &str, faults: &[String]) -> bool {
    match faults {
        [] => println!("ok     {what}"),
        [first, ..] => println!("FAILED {what}: {} of them, first {first}", faults.len()),
    }
    faults.is_empty()
}

fn main() {
    let folder = std::env::args().nth(1).expect("a folder for files");
    let texts = files("traces");
    let mut binaries = files("crates/cases/data");
    binaries.extend(files("crates/cases_mii/data"));
    let binaries: Vec<Vec<u8>> = binaries.iter().map(|p| read(p)).collect();
    let mut random = Random(2_026);
    let mut ok = true;

    let (mut faults, mut count) = (Vec::new(), 0);
    for path in &texts {
        let text = String::from_utf8(read(path)).expect("a text");
        for (line, text) in spoilt(&text) {
            let name = format!("{folder}/spoilt.txt");
            fs::write(&name, &text).expect("a file is written");
            let output = replay(&["--quiet", &name]);
            let said = String::from_utf8_lossy(&output.stdout);
            let named = said.starts_with(&format!("{name}:{line}: "));
            if output.status.code() != Some(1) || !named || !output.stderr.is_empty() {
                faults.push(format!("{}, line {line}", path.display()));
            }
            count += 1;
        }
    }
    if count < 1_000 {
        faults.push(format!("only {count} were found to spoil"));
    }
    ok &= tell(
        &format!("{count} spoilt expectations: status 1, and the line is named"),
        &faults,
    );

    let mut faults = Vec::new();
    let mut lines_seen = 0;
    for number in 0..RANDOM {
        let bytes = random_bytes(&mut random, &binaries);
        let name = format!("{folder}/random-{number}");
        fs::write(&name, &bytes).expect("a file is written");
        let output = replay(&["--quiet", &name]);
        lines_seen += usize::from(!output.stdout.starts_with(format!("{name}: 0 ").as_bytes()));
        let mut editions = EDITIONS.into_iter();
        let found = fault(&output, &name)
            .or_else(|| editions.find_map(|edition| binary_fault(&name, &bytes, edition)));
        faults.extend(found.map(|fault| format!("{name}: {fault}")));
    }
    if lines_seen < RANDOM / 4 {
        faults.push(format!("only {lines_seen} of them were played"));
    }
    ok &= tell(
        &format!(
            "{RANDOM} random byte strings: no panic, text and back, the proved programs' lines"
        ),
        &faults,
    );

    let (mut faults, mut refused) = (Vec::new(), 0);
    for number in 0..DAMAGED {
        let text = read(random.one_of::<PathBuf>(&texts));
        let bytes = damaged(&mut random, &text);
        let name = format!("{folder}/damaged-{number}.txt");
        fs::write(&name, &bytes).expect("a file is written");
        let output = replay(&["--quiet", &name]);
        refused += usize::from(output.status.code() == Some(2));
        let traced = run("target/tools/trace", &["bytes", &name], b"");
        // A text with nothing but damage left in it may be taken for a binary trace.
        let same = (traced.status.code() == Some(2)) == (output.status.code() == Some(2))
            || String::from_utf8_lossy(&traced.stderr).contains("a binary trace");
        let counted = String::from_utf8_lossy(&output.stdout).contains(", 0 expectations, ");
        let found = fault(&output, &name)
            .or((!same).then(|| "tools/trace says another".into()))
            .or((counted && expects(&bytes)).then(|| "an expectation is passed over".into()));
        faults.extend(found.map(|fault| format!("{name}: {fault}")));
    }
    if refused < DAMAGED / 4 || refused == DAMAGED {
        faults.push(format!("{refused} of them were refused"));
    }
    ok &= tell(
        &format!("{DAMAGED} damaged texts: no panic, and each error names a line"),
        &faults,
    );
    exit(i32::from(!ok));
}
