//! Book checks as processes: each reads a book from its standard input and prints what it finds.

use std::env;
use std::io::{self, Read, Write};
use std::path::PathBuf;
use std::process::{Command, Stdio};

use crate::hand_book;

/// Names another program than the tree's own.
const PROGRAM: &str = "VISORDATE_CHECKBOOK";

/// Who checks.
#[derive(Clone, Copy, Debug, PartialEq, Eq)]
pub enum Checker {
    Engine,
    Hand,
    Second,
}

impl Checker {
    /// The process that checks: the engine's program, or this one with a word for who checks.
    fn command(self) -> io::Result<Command> {
        let word = match self {
            Checker::Engine => return Ok(Command::new(program())),
            Checker::Hand => "hand",
            Checker::Second => "second",
        };
        let mut command = Command::new(env::current_exe()?);
        command.args(["--book", word]);
        Ok(command)
    }
}

/// The engine's program `checkbook`.
fn program() -> PathBuf {
    match env::var_os(PROGRAM) {
        Some(program) => PathBuf::from(program),
        None => PathBuf::from(env!("CARGO_MANIFEST_DIR")).join("../crates/checkbook/out/checkbook"),
    }
}

/// What a process prints for a book.
pub fn checked(checker: Checker, book: &[u8]) -> Result<Vec<u8>, String> {
    output(checker, book).map_err(|fault| match checker {
        Checker::Engine => {
            format!(
                "checkbook: {fault}; `rt run` in crates/checkbook builds it, or {PROGRAM} names it"
            )
        }
        Checker::Hand | Checker::Second => format!("{checker:?}: {fault}"),
    })
}

fn output(checker: Checker, book: &[u8]) -> io::Result<Vec<u8>> {
    let mut command = checker.command()?;
    let mut process = command
        .stdin(Stdio::piped())
        .stdout(Stdio::piped())
        .spawn()?;
    if let Some(mut input) = process.stdin.take() {
        input.write_all(book)?;
    }
    let output = process.wait_with_output()?;
    if output.status.success() {
        Ok(output.stdout)
    } else {
        Err(io::Error::other("the process failed"))
    }
}

/// Is such a process: checks the book on standard input.
pub fn check_here(word: &str) -> io::Result<()> {
    let check = match word {
        "hand" => hand_book::checkbook,
        "second" => second::programs::checkbook,
        _ => return Err(io::Error::other("no such checker")),
    };
    let mut book = Vec::new();
    io::stdin().read_to_end(&mut book)?;
    io::stdout().write_all(&check(&book))
}
