//! Programs, run as processes: bytes in, bytes out.

use std::io::{ErrorKind, Write};
use std::path::{Path, PathBuf};
use std::process::{Command, Stdio};
use std::{fmt, thread};

/// Where a program is that was built in its crate's folder.
pub fn path_of(crates: &str, name: &str) -> PathBuf {
    Path::new(crates).join(name).join("out").join(name)
}

/// The program as each compiler built it: the gate builds every program by two, and other commands by one.
pub fn builds_of(crates: &str, name: &str) -> Vec<PathBuf> {
    let path = path_of(crates, name);
    let other = path.with_extension("by-rattle");
    if other.is_file() {
        vec![path, other]
    } else {
        vec![path]
    }
}

/// What a process came to.
#[derive(PartialEq, Eq)]
pub struct Ended {
    /// `None` where a signal ended it.
    pub status: Option<i32>,
    pub printed: Vec<u8>,
    pub complained: Vec<u8>,
}

impl Ended {
    /// Ended as a program does that has nothing to complain of.
    pub fn well(printed: Vec<u8>) -> Ended {
        Ended { status: Some(0), printed, complained: Vec::new() }
    }
}

impl fmt::Display for Ended {
    fn fmt(&self, f: &mut fmt::Formatter) -> fmt::Result {
        writeln!(f, "status {:?}", self.status)?;
        if !self.complained.is_empty() {
            writeln!(f, "    complained: {}", self.complained.escape_ascii())?;
        }
        write!(f, "    printed: {}", self.printed.escape_ascii())
    }
}

/// Runs a program on some input. A program need not read all of it.
pub fn run(path: &Path, input: &[u8]) -> Ended {
    let piped = Command::new(path).stdin(Stdio::piped()).stdout(Stdio::piped()).stderr(Stdio::piped()).spawn();
    let mut child = piped.unwrap_or_else(|error| panic!("{} does not run: {error}", path.display()));
    let mut to_child = child.stdin.take().expect("it was asked for");
    let output = thread::scope(|scope| {
        scope.spawn(move || match to_child.write_all(input) {
            Err(error) if error.kind() != ErrorKind::BrokenPipe => panic!("a program's input: {error}"),
            _ => (),
        });
        child.wait_with_output()
    });
    let output = output.unwrap_or_else(|error| panic!("{}: {error}", path.display()));
    Ended { status: output.status.code(), printed: output.stdout, complained: output.stderr }
}
