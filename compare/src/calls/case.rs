//! One case: a call, its numbers, and its rows in the order in which they are handed over.

use crate::fenced::Empty;
use crate::report::hex;
use std::fmt;

#[derive(Clone, Copy, PartialEq, Eq, Debug)]
pub enum Call {
    Request,
    Answer,
    Recover,
}

pub const ALL: [Call; 3] = [Call::Request, Call::Answer, Call::Recover];

#[derive(Clone)]
pub struct Case {
    pub call: Call,
    pub h: u32,
    pub q: u32,
    pub position: u32,
    pub rows: Vec<Vec<u8>>,
    pub empty: Empty,
}

impl Call {
    pub fn name(self) -> &'static str {
        match self {
            Call::Request => "request",
            Call::Answer => "answer",
            Call::Recover => "recover",
        }
    }

    pub fn rows(self) -> &'static [&'static str] {
        match self {
            Call::Request => &["tape", "first", "second", "shift"],
            Call::Answer => &["table", "query", "sheet"],
            Call::Recover => &["shift", "first", "second", "entry"],
        }
    }

    /// Whether the call may write to that row.
    pub fn writes(self, row: usize) -> bool {
        match self {
            Call::Request => row > 0,
            Call::Answer => row == 2,
            Call::Recover => row == 3,
        }
    }

    /// The numbers that it may return.
    pub fn results(self) -> &'static [u32] {
        match self {
            Call::Request => &[0, 1, 2, 3, 6, 7],
            Call::Answer => &[0, 1, 2, 3],
            Call::Recover => &[0, 1, 2, 3, 6, 8],
        }
    }
}

impl fmt::Display for Case {
    fn fmt(&self, f: &mut fmt::Formatter) -> fmt::Result {
        write!(f, "{} h {} q {} position {}", self.call.name(), self.h, self.q, self.position)?;
        write!(f, "\n{}", told_rows(self.call, &self.rows))?;
        write!(f, "\n    rows of no bytes: {:?}", self.empty)
    }
}

/// The rows of a call, a line for each.
pub fn told_rows(call: Call, rows: &[Vec<u8>]) -> String {
    let line = |(name, row): (&&str, &Vec<u8>)| format!("    {name} ({} bytes) {}", row.len(), hex(row));
    call.rows().iter().zip(rows).map(line).collect::<Vec<_>>().join("\n")
}
