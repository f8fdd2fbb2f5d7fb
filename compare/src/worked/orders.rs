//! The order in which each call refuses: a case for each test, where all tests before it pass and all after it fail.

use super::calls::{case, refused, Named};
use crate::calls::case::{Call, Case};

/// The refusals of each call, in their order.
const REQUEST: [u32; 8] = [3, 3, 1, 1, 1, 6, 7, 2];
const ANSWER: [u32; 9] = [3, 3, 3, 2, 3, 1, 1, 2, 2];
const RECOVER: [u32; 11] = [3, 3, 1, 1, 1, 1, 6, 2, 2, 2, 8];

pub fn all() -> Vec<Named> {
    let mut all = in_order("request", &REQUEST, request);
    all.extend(in_order("answer", &ANSWER, answer));
    all.extend(in_order("recover", &RECOVER, recover));
    all
}

fn in_order(call: &str, order: &[u32], made: fn(usize) -> Case) -> Vec<Named> {
    let named = |(passed, status): (usize, &u32)| {
        let case = made(passed);
        (format!("{call} passes {passed} tests of {}", order.len()), refused(&case, *status), case)
    };
    order.iter().enumerate().map(named).collect()
}

/// The numbers of h = 1, q = 2, of which the first so many are fit.
fn numbers(passed: usize, position: u32) -> [u32; 3] {
    [if passed > 0 { 1 } else { 6 }, if passed > 1 { 2 } else { 17 }, position]
}

/// A row that passes its length test or fails it, and whose last byte is a digit or none.
fn row(fit: usize, long: bool, digit: bool) -> Vec<u8> {
    let mut row = vec![0; if long { fit + 1 } else { fit }];
    if let Some(last) = row.last_mut() {
        *last = if digit { 0 } else { 6 };
    }
    row
}

fn request(passed: usize) -> Case {
    let position = if passed > 5 { 1 } else { 2 };
    let tape = row(if passed > 6 { 3 } else { 2 }, false, false);
    let rows = vec![tape, row(3, passed <= 2, true), row(3, passed <= 3, true), row(1, passed <= 4, true)];
    case(Call::Request, numbers(passed, position), rows)
}

/// The table is of no entries, then of three, of which one is no digit, then of three digits, then of two.
fn answer(passed: usize) -> Case {
    let table = match passed {
        0..=2 => vec![],
        3 => vec![0, 6, 0],
        4 => vec![0; 3],
        _ => vec![0; 2],
    };
    let rows = vec![table, row(3, passed <= 5, passed > 7), row(24, passed <= 6, false)];
    case(Call::Answer, numbers(passed, 0), rows)
}

fn recover(passed: usize) -> Case {
    let position = if passed > 6 { 1 } else { 2 };
    let mut first = row(24, passed <= 3, passed > 8);
    first[0] = 1;
    let rows = vec![row(1, passed <= 2, passed > 7), first, row(24, passed <= 4, passed > 9), row(1, passed <= 5, true)];
    case(Call::Recover, numbers(passed, position), rows)
}
