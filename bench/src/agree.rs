//! What is compared before anything is timed: refused calls, and books that are refused.

use crate::calls::{Calls, ENGINE, HAND, SECOND};
use crate::inputs::{Numbers, book};
use crate::processes::{Checker, checked};
use crate::words::Words;

/// What a call gave, and what its rows then held.
type Outcome = (u32, Vec<u8>);

/// Where a call departs from one that is taken.
#[derive(Clone, Copy, Debug)]
struct Change {
    what: &'static str,
    h: u32,
    q: u32,
    position: u32,
    /// by how much the first row, that is tape, table or shift, is shorter
    shorter: usize,
    /// the byte put into the first row's end
    byte: u8,
    /// by how much the last row, that is second query, sheet or second sheet, is longer
    longer: usize,
}

const TAKEN: Change = Change {
    what: "taken",
    h: 2,
    q: 3,
    position: 4,
    shorter: 0,
    byte: 5,
    longer: 0,
};

const CHANGES: [Change; 8] = [
    TAKEN,
    Change {
        what: "six letters",
        h: 6,
        ..TAKEN
    },
    Change {
        what: "an alphabet of 17",
        q: 17,
        ..TAKEN
    },
    Change {
        what: "another family",
        h: 1,
        ..TAKEN
    },
    Change {
        what: "a position too far",
        position: 9,
        ..TAKEN
    },
    Change {
        what: "a first row too short",
        shorter: 1,
        ..TAKEN
    },
    Change {
        what: "no digit",
        byte: 6,
        ..TAKEN
    },
    Change {
        what: "a last row too long",
        longer: 1,
        ..TAKEN
    },
];

/// Compares all of it; the refusal says where two differ.
pub fn all() -> Result<(), String> {
    for change in CHANGES {
        same(
            change.what,
            [
                request(ENGINE, change),
                request(HAND, change),
                request(SECOND, change),
            ],
        )?;
        same(
            change.what,
            [
                answer(ENGINE, change),
                answer(HAND, change),
                answer(SECOND, change),
            ],
        )?;
        same(
            change.what,
            [
                recover(ENGINE, change),
                recover(HAND, change),
                recover(SECOND, change),
            ],
        )?;
    }
    for (what, bytes) in refused_books()? {
        let text = |checker| checked(checker, &bytes);
        same(
            what,
            [
                text(Checker::Engine)?,
                text(Checker::Hand)?,
                text(Checker::Second)?,
            ],
        )?;
    }
    Ok(())
}

/// Books that are refused: for a pair of two positions, for a position with itself, for a byte that is no digit, for their length.
fn refused_books() -> Result<[(&'static str, Vec<u8>); 4], String> {
    let words = Words::new(2, 5).ok_or("no such words")?;
    let good = book(words);
    let last = good.len() - 1;
    let first_of_last_vector = good.len() - words.dimension();
    Ok([
        ("a pair of two", with(&good, first_of_last_vector, 5)),
        ("a pair of one", with(&good, last, 1)),
        ("no digit in a book", with(&good, last, 6)),
        ("a short book", good[..last].to_vec()),
    ])
}

/// A row with another byte at a place.
fn with(row: &[u8], place: usize, byte: u8) -> Vec<u8> {
    let mut row = row.to_vec();
    row[place] = byte;
    row
}

fn same<T: PartialEq>(what: &str, outcomes: [T; 3]) -> Result<(), String> {
    let [engine, hand, second] = outcomes;
    if engine != hand {
        return Err(format!(
            "{what}: the engine and the hand-optimised version differ"
        ));
    }
    if engine != second {
        return Err(format!(
            "{what}: the engine and the second implementation differ"
        ));
    }
    Ok(())
}

/// A row of digits with the change's byte at its end.
fn first_row(change: Change, len: usize) -> Vec<u8> {
    let mut row = Numbers::new(7).digits(len - change.shorter);
    if let Some(last) = row.last_mut() {
        *last = change.byte;
    }
    row
}

/// The dimension, the count and the length of a sheet that rows are made for.
const K: usize = 16;
const N: usize = 9;
const SHEET: usize = 6 * (1 + K);

fn request(calls: Calls, change: Change) -> Outcome {
    let tape = first_row(change, K);
    let (mut first, mut second, mut shift) = (vec![9; K], vec![9; K + change.longer], vec![9]);
    let status = (calls.request)(
        change.h,
        change.q,
        change.position,
        &tape,
        &mut first,
        &mut second,
        &mut shift,
    );
    (status, [first, second, shift].concat())
}

fn answer(calls: Calls, change: Change) -> Outcome {
    let table = first_row(change, N);
    let query = Numbers::new(8).digits(K);
    let mut sheet = Numbers::new(9).digits(SHEET + change.longer);
    let status = (calls.answer)(change.h, change.q, &table, &query, &mut sheet);
    (status, sheet)
}

fn recover(calls: Calls, change: Change) -> Outcome {
    let shift = first_row(change, 1);
    let one = Numbers::new(10).digits(SHEET);
    let two = Numbers::new(11).digits(SHEET + change.longer);
    let mut entry = vec![9];
    let status = (calls.recover)(
        change.h,
        change.q,
        change.position,
        &shift,
        &one,
        &two,
        &mut entry,
    );
    (status, entry)
}
