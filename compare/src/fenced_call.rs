//! The engine's three calls, on rows between fences.

use crate::calls::case::{Call, Case};
use crate::fenced::Fenced;
use engine::c::{visordate_answer, visordate_recover, visordate_request};

/// What a call came to: its result, and each row after it.
pub struct Outcome {
    pub status: u32,
    pub rows: Vec<Vec<u8>>,
    /// Which rows' fences were altered.
    pub broken: Vec<usize>,
}

/// Runs a case on rows that stand between fences.
pub fn run(case: &Case) -> Outcome {
    let mut rows: Vec<Fenced> = case.rows.iter().map(|row| Fenced::new(row, case.empty)).collect();
    let status = call(case, &mut rows);
    Outcome {
        status,
        broken: (0..rows.len()).filter(|i| !rows[*i].stands()).collect(),
        rows: rows.iter().map(|fenced| fenced.row().to_vec()).collect(),
    }
}

fn call(case: &Case, rows: &mut [Fenced]) -> u32 {
    let (h, q, t) = (case.h, case.q, case.position);
    let row: Vec<(*mut u8, usize)> = rows.iter_mut().map(|row| (row.pointer(), row.len())).collect();
    // SAFETY: each pointer is to so many bytes of a row of its own, which nothing else uses while the call runs.
    unsafe {
        match (case.call, row.as_slice()) {
            (Call::Request, [tape, first, second, shift]) => {
                visordate_request(h, q, t, tape.0, tape.1, first.0, first.1, second.0, second.1, shift.0, shift.1)
            }
            (Call::Answer, [table, query, sheet]) => visordate_answer(h, q, table.0, table.1, query.0, query.1, sheet.0, sheet.1),
            (Call::Recover, [shift, first, second, entry]) => {
                visordate_recover(h, q, t, shift.0, shift.1, first.0, first.1, second.0, second.1, entry.0, entry.1)
            }
            _ => panic!("a case has the rows of its call"),
        }
    }
}
