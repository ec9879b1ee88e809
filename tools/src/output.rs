//! Standard output, whose failures are errors, and standard error, whose failures nobody hears.

use crate::files::reason_of;
use std::io::{self, BufWriter, ErrorKind, Stdout, Write};
use std::process::exit;

/// A line to standard error.
pub fn tell(line: &str) {
    let _ = writeln!(io::stderr(), "{line}");
}

pub struct Output {
    program: &'static str,
    to: BufWriter<Stdout>,
}

impl Output {
    pub fn new(program: &'static str) -> Output {
        Output {
            program,
            to: BufWriter::new(io::stdout()),
        }
    }

    /// Ends the program where output fails; without a word where its reader is gone.
    fn check(&self, done: io::Result<()>) {
        if let Err(e) = done {
            if e.kind() != ErrorKind::BrokenPipe {
                tell(&format!(
                    "{}: standard output: {}",
                    self.program,
                    reason_of(&e)
                ));
            }
            exit(2);
        }
    }

    pub fn put(&mut self, bytes: &[u8]) {
        let done = self.to.write_all(bytes);
        self.check(done);
    }

    pub fn line(&mut self, line: &str) {
        self.put(line.as_bytes());
        self.put(b"\n");
    }

    pub fn close(&mut self) {
        let done = self.to.flush();
        self.check(done);
    }
}
