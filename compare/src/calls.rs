//! The three calls from C, run in the static library and in the second implementation.

pub mod case;
mod faults;
pub mod lookups;

use crate::fenced_call::{self, Outcome};
use crate::options::Options;
use crate::random::Random;
use crate::report::{Difference, Tally};
use crate::sizes::Sizes;
use crate::spread::over_cores;
use case::{told_rows, Call, Case};
use std::panic::catch_unwind;

pub const PART: &str = "calls";
const CASES: u64 = 100_000;

/// Compares all cases.
pub fn compare(options: &Options) -> Tally {
    let (first, end) = options.cases(CASES);
    over_cores(first, end, |number, tally| {
        let case = made(options.seed, number);
        let name = format!("--part {PART} --seed {} --case {number}", options.seed);
        match compared(&case, name) {
            Ok(status) => tally.count(kind(case.call, status)),
            Err(difference) => tally.differences.push(difference),
        }
    })
}

/// The results that a call may give and never gave.
pub fn missing(tally: &Tally) -> Vec<String> {
    let all = case::ALL.iter().flat_map(|call| call.results().iter().map(|status| kind(*call, *status)));
    all.filter(|kind| tally.of_kind(kind) == 0).collect()
}

fn kind(call: Call, status: u32) -> String {
    match status {
        0 => format!("{} taken", call.name()),
        _ => format!("{} refused {status}", call.name()),
    }
}

/// The case of a number. The calls take turns: first with each family, from the largest down, and then with and without faults.
fn made(seed: u64, number: u64) -> Case {
    let mut random = Random::of(seed, PART, number);
    let call = case::ALL[(number % 3) as usize];
    let turn = number / 3;
    if let Some(sizes) = Sizes::all().rev().nth(turn as usize) {
        return lookups::of(&mut random, call, sizes);
    }
    let mut case = lookups::some(&mut random, call);
    if turn % 2 == 1 {
        faults::put(&mut random, &mut case, turn / 2);
    }
    case
}

/// The result that both give, if they do the same in every respect.
pub fn compared(case: &Case, name: String) -> Result<u32, Difference> {
    let engine = fenced_call::run(case);
    let second = catch_unwind(|| second_run(case));
    match &second {
        Ok((status, rows)) if engine.status == *status && engine.rows == *rows && is_fit(case, &engine) => Ok(*status),
        _ => Err(Difference {
            case: name,
            input: case.to_string(),
            engine: told_engine(case, &engine),
            second: second.map_or("panicked".to_string(), |(status, rows)| told(case.call, status, &rows)),
        }),
    }
}

/// Whether a call left everything that it may not write to: fences, rows that it only reads, and all rows where it refuses.
fn is_fit(case: &Case, engine: &Outcome) -> bool {
    let kept = |row: usize| (engine.status == 0 && case.call.writes(row)) || engine.rows[row] == case.rows[row];
    engine.broken.is_empty() && (0..case.rows.len()).all(kept)
}

fn second_run(case: &Case) -> (u32, Vec<Vec<u8>>) {
    let (h, q, t) = (case.h, case.q, case.position);
    let mut rows = case.rows.clone();
    let status = match (case.call, rows.as_mut_slice()) {
        (Call::Request, [tape, first, second, shift]) => second::calls::request(h, q, t, tape, first, second, shift),
        (Call::Answer, [table, query, sheet]) => second::calls::answer(h, q, table, query, sheet),
        (Call::Recover, [shift, first, second, entry]) => second::calls::recover(h, q, t, shift, first, second, entry),
        _ => panic!("a case has the rows of its call"),
    };
    (status, rows)
}

fn told(call: Call, status: u32, rows: &[Vec<u8>]) -> String {
    format!("result {status}\n{}", told_rows(call, rows))
}

fn told_engine(case: &Case, engine: &Outcome) -> String {
    let broken = match engine.broken.as_slice() {
        [] => String::new(),
        rows => format!("\n    bytes outside of these rows were written: {rows:?}"),
    };
    told(case.call, engine.status, &engine.rows) + &broken
}
