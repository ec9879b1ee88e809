//! The program behind tools/sweeps: traces that go over small domains whole, for both editions. What
//! is expected of a record is reckoned by a rule in the words of 01 or 02 that stands beside the loop,
//! from what the sweep itself has set up. There is no model of the machine here.

#[allow(dead_code)] // what tools/trace needs of it
mod form;

mod sweep;
mod sweep_states;
mod sweeps_boundaries;
mod sweeps_config;
mod sweeps_header;
mod sweeps_memory;
mod sweeps_opcodes;

use form::{framing, Stop, INPUT_LIMIT};
use std::path::Path;
use std::{fs, io};
use sweep::Sweep;

/// The gate takes no more of a program's output.
const OUTPUT_LIMIT: usize = 1_048_576;

const SWEEPS: [(&str, fn(&mut Sweep)); 25] = [
    ("region", sweeps_memory::region),
    ("routing", sweeps_memory::routing),
    ("routing-bits", sweeps_memory::routing_bits),
    ("operands", sweeps_memory::operands),
    ("opcodes", sweeps_opcodes::opcodes),
    ("opcodes-named", sweeps_opcodes::named),
    ("opcodes-valid", sweeps_opcodes::validity),
    ("segments", sweeps_opcodes::segments),
    ("halted", sweeps_opcodes::halted),
    ("ports", sweeps_config::ports),
    ("indexes", sweeps_config::indexes),
    ("lock", sweeps_config::lock),
    ("lock-ccr3", sweeps_config::lock_ccr3),
    ("malformed", sweeps_boundaries::malformed),
    ("boundaries", sweeps_boundaries::boundaries),
    ("ccr1", sweeps_boundaries::ccr1),
    ("ccr6", sweeps_boundaries::ccr6),
    ("reset", sweeps_header::reset),
    ("header-fits", sweeps_boundaries::header_fits),
    ("header", sweeps_header::header),
    ("header-place", sweeps_header::header_place),
    ("header-steps", sweeps_header::header_steps),
    ("resume", sweeps_header::resume),
    ("entry-segment", sweeps_header::entry_segment),
    ("entry-registers", sweeps_header::entry_registers),
];

/// Makes what an edition's program is run on, and says how much it is.
fn make(folder: &Path, mii: bool) -> io::Result<()> {
    let data = folder.join("data");
    if data.exists() {
        fs::remove_dir_all(&data)?;
    }
    fs::create_dir_all(&data)?;
    let (mut args, mut stdout) = (String::new(), String::new());
    let mut all = (0, 0, 0);
    for (name, fill) in SWEEPS {
        let traces = Vec::new();
        let mut sweep = Sweep { mii, traces };
        fill(&mut sweep);
        let (mut records, mut bytes) = (0, 0);
        for (number, trace) in sweep.traces.iter().enumerate() {
            let played = framing(&trace.bytes);
            assert!(trace.bytes.len() <= INPUT_LIMIT && played.stop == Stop::End);
            assert_eq!(played.records.len(), trace.records);
            let file = format!("{name}-{}.bin", number + 1);
            fs::write(data.join(&file), &trace.bytes)?;
            args += &format!("{file}\n");
            stdout += &format!("== {file}\n{}end\n", trace.lines);
            (records, bytes) = (records + trace.records, bytes + trace.bytes.len());
        }
        let traces = sweep.traces.len();
        println!("{name}: {traces} traces, {records} records, {bytes} bytes");
        all = (all.0 + traces, all.1 + records, all.2 + bytes);
    }
    let (traces, records, bytes) = all;
    let (folder_name, lines) = (folder.display(), stdout.len());
    println!(
        "{folder_name}: {traces} traces, {records} records, {bytes} bytes; {lines} bytes expected"
    );
    assert!(lines <= OUTPUT_LIMIT, "more output than the gate takes");
    fs::write(folder.join("args"), args)?;
    fs::write(folder.join("stdout"), stdout)
}

fn main() -> io::Result<()> {
    make(Path::new("crates/sweeps"), false)?;
    make(Path::new("crates/sweeps_mii"), true)
}
