//! The program `lookup`: one lookup from end to end, and its few lines of output.

use super::input::{reply, Done};
use super::tell;

/// What it prints for its input.
pub fn print(input: &[u8]) -> String {
    reply(input, told)
}

/// The lines for a lookup that was read.
fn told(done: &Done) -> String {
    let [first, second] = &done.rows.queries;
    let lines = [
        format!("position {}", done.position),
        format!("first{}", tell::row(first)),
        format!("second{}", tell::row(second)),
        format!("carried {}", done.read.carried),
        format!("entry {}", done.read.entry),
    ];
    lines.map(|line| line + "\n").concat()
}
