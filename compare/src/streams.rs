//! The programs at the edges of their streams: how much of their input they read, and with which status they end where it can't be
//! read or their output can't be written.

use crate::options::Options;
use crate::process::builds_of;
use crate::report::{Difference, Tally};
use std::fs::File;
use std::io::{self, Seek};
use std::path::Path;
use std::process::{Command, Stdio};

pub const PART: &str = "streams";

/// What a program does with its streams.
struct Case {
    name: &'static str,
    programs: &'static [&'static str],
    /// What comes of it, or how the streams could not be had.
    tried: fn(&Path) -> io::Result<String>,
    wanted: &'static str,
}

const CASES: [Case; 3] = [
    Case {
        name: "input far too long: one byte more than an inquiry may have is read",
        programs: &["lookup", "key"],
        tried: read_of_much,
        wanted: "8193 bytes are read; status Some(0), printed: refused 1\\n",
    },
    Case {
        name: "input that can't be read, a folder",
        programs: &["lookup", "key", "checkbook"],
        tried: from_a_folder,
        wanted: "status Some(1), printed: ",
    },
    Case {
        name: "output that can't be written, a full device",
        programs: &["lookup", "key", "checkbook"],
        tried: to_a_full_device,
        wanted: "status Some(1), printed: ",
    },
];

pub fn compare(options: &Options) -> Tally {
    let mut tally = Tally::default();
    for case in &CASES {
        for program in case.programs {
            for build in builds_of(&options.crates, program) {
                held(case, &build, &mut tally);
            }
        }
    }
    tally
}

/// All cases are run each time.
pub fn missing(_: &Tally) -> Vec<String> {
    Vec::new()
}

fn held(case: &Case, build: &Path, tally: &mut Tally) {
    match (case.tried)(build) {
        Ok(came) if came == case.wanted => tally.count(case.name.to_string()),
        came => tally.differences.push(Difference {
            case: format!("--part {PART}, {}", build.display()),
            input: case.name.to_string(),
            engine: came.unwrap_or_else(|error| format!("not tried: {error}")),
            second: format!("(not run) wanted: {}", case.wanted),
        }),
    }
}

/// Runs a program whose input is a file much longer than an inquiry. The file's place is shared with the program, so it tells how far that read.
fn read_of_much(build: &Path) -> io::Result<String> {
    let path = std::env::temp_dir().join(format!("visordate-much-{}", std::process::id()));
    std::fs::write(&path, vec![b'0'; 100_000])?;
    let file = File::open(&path);
    std::fs::remove_file(&path)?;
    let mut file = file?;
    let came = ended(build, Stdio::from(file.try_clone()?), Stdio::piped())?;
    Ok(format!("{} bytes are read; {came}", file.stream_position()?))
}

fn from_a_folder(build: &Path) -> io::Result<String> {
    ended(build, Stdio::from(File::open(".")?), Stdio::piped())
}

/// An empty input is answered with a line, too.
fn to_a_full_device(build: &Path) -> io::Result<String> {
    ended(build, Stdio::null(), Stdio::from(File::options().write(true).open("/dev/full")?))
}

/// How a program ends on these streams. What it complains of is not told.
fn ended(build: &Path, input: Stdio, output: Stdio) -> io::Result<String> {
    let output = Command::new(build).stdin(input).stdout(output).stderr(Stdio::piped()).output()?;
    Ok(format!("status {:?}, printed: {}", output.status.code(), output.stdout.escape_ascii()))
}
