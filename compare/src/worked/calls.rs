//! Worked cases and near errors as calls from C, with the result and the rows that each has to leave.

use super::PART;
use crate::calls::case::{told_rows, Call, Case};
use crate::calls::compared;
use crate::fenced::Empty;
use crate::fenced_call;
use crate::report::{Difference, Tally};
use crate::sizes::Sizes;

/// The result and the rows after the call; a refusal leaves them as they were.
pub struct Wanted {
    pub status: u32,
    pub rows: Vec<Vec<u8>>,
}

pub fn case(call: Call, [h, q, position]: [u32; 3], rows: Vec<Vec<u8>>) -> Case {
    Case { call, h, q, position, rows, empty: Empty::Null }
}

pub fn refused(case: &Case, status: u32) -> Wanted {
    Wanted { status, rows: case.rows.clone() }
}

/// Runs a case in both, and holds both to what is wanted.
pub fn held(name: String, wanted: &Wanted, case: &Case, tally: &mut Tally) {
    let alike = compared(case, format!("--part {PART}, {name}"));
    let engine = fenced_call::run(case);
    match alike {
        Err(difference) => tally.differences.push(difference),
        Ok(status) if status == wanted.status && engine.rows == wanted.rows => tally.count(format!("calls of {}", case.call.name())),
        Ok(status) => tally.differences.push(Difference {
            case: format!("--part {PART}, {name}"),
            input: format!("{case}\n  the page: result {}\n{}", wanted.status, told_rows(case.call, &wanted.rows)),
            engine: format!("result {status}\n{}", told_rows(case.call, &engine.rows)),
            second: "the same as the engine".to_string(),
        }),
    }
}

/// A case by its name, with what is wanted of it.
pub type Named = (String, Wanted, Case);

pub fn all() -> Vec<Named> {
    let mut all = lookup();
    all.extend(one_too_far());
    all.extend(at_odds());
    all.extend((2..=16).flat_map(letters_apart));
    all
}

const SHEETS: [[u8; 24]; 2] = [
    [0, 5, 0, 0, 2, 0, 0, 5, 0, 0, 2, 0, 0, 0, 0, 0, 2, 0, 0, 5, 0, 0, 0, 0],
    [0, 5, 0, 0, 0, 2, 0, 5, 0, 0, 0, 2, 0, 0, 0, 0, 0, 2, 0, 5, 0, 0, 0, 0],
];

/// The lookup with table 2 5, position 1 and tape 3 1 4, and the one that looks alike to the second host.
fn lookup() -> Vec<Named> {
    let tapes =
        [("the lookup: request", 1, [3, 1, 4], 1), ("the lookup with the tape 3 2 3 that looks alike to the second host", 0, [3, 2, 3], 5)];
    let requests = tapes.map(|(name, position, tape, shift)| {
        let request = case(Call::Request, [1, 2, position], vec![tape.to_vec(), vec![9; 3], vec![9; 3], vec![9]]);
        let rows = vec![tape.to_vec(), tape.to_vec(), vec![4, 1, 3], vec![shift]];
        (name.to_string(), Wanted { status: 0, rows }, request)
    });
    let answers = [([3, 1, 4], SHEETS[0]), ([4, 1, 3], SHEETS[1])].map(|(query, sheet)| {
        let answer = case(Call::Answer, [1, 2, 0], vec![vec![2, 5], query.to_vec(), vec![0; 24]]);
        let rows = vec![vec![2, 5], query.to_vec(), sheet.to_vec()];
        (format!("the lookup: answer to {query:?}"), Wanted { status: 0, rows }, answer)
    });
    let sheets = || SHEETS.map(|sheet| sheet.to_vec()).to_vec();
    let recover = case(Call::Recover, [1, 2, 1], [vec![vec![1]], sheets(), vec![vec![9]]].concat());
    let read = Wanted { status: 0, rows: [vec![vec![1]], sheets(), vec![vec![5]]].concat() };
    requests.into_iter().chain(answers).chain([("the lookup: recovery".to_string(), read, recover)]).collect()
}

/// Position n - 1 and n, k tape digits and k - 1, five letters and six.
fn one_too_far() -> Vec<Named> {
    let request = |numbers, tape: usize, k: usize| case(Call::Request, numbers, vec![vec![0; tape], vec![9; k], vec![9; k], vec![9]]);
    let taken = |second: Vec<u8>| {
        let k = second.len();
        Wanted { status: 0, rows: vec![vec![0; k], vec![0; k], second, vec![0]] }
    };
    let at_n = request([1, 2, 2], 3, 3);
    let too_short = request([1, 2, 1], 2, 3);
    let six_letters = request([6, 2, 1], 100, 51);
    vec![
        ("near error, one too far: position n - 1, k digits".to_string(), taken(vec![1, 0, 5]), request([1, 2, 1], 3, 3)),
        ("near error, one too far: position n".to_string(), refused(&at_n, 6), at_n),
        ("near error, one too far: k - 1 digits".to_string(), refused(&too_short, 7), too_short),
        ("near error, six letters".to_string(), refused(&six_letters, 3), six_letters),
    ]
}

/// With s = 0, two sheets that come to W = (0, 1, 0, 0, 2, 3): the first's value is 1, and everything else 0.
fn at_odds() -> Vec<Named> {
    let mut one = vec![0; 24];
    one[0] = 1;
    let recover = case(Call::Recover, [1, 2, 1], vec![vec![0], one, vec![0; 24], vec![9]]);
    vec![("sheets that come to W = (0, 1, 0, 0, 2, 3), s = 0".to_string(), refused(&recover, 8), recover)]
}

/// Words of five letters that differ in 0 to 5 letters have the products 0, 1, 4, 3, 4, 1. A request with a tape of zeros shows v
/// as its second query, and one with v on the tape has the product as its shift.
fn letters_apart(q: u32) -> Vec<Named> {
    let sizes = Sizes { h: 5, q };
    let k = sizes.dimension();
    let zeros = vec![vec![0; k], vec![9; k], vec![9; k], vec![9]];
    let own = fenced_call::run(&case(Call::Request, [5, q, 0], zeros.clone())).rows.swap_remove(2);
    let differ = |letters: u32| (0..letters).map(|place| q.pow(place)).sum::<u32>();
    let products = [0, 1, 4, 3, 4, 1];
    (0..6)
        .map(|letters| {
            let v = fenced_call::run(&case(Call::Request, [5, q, differ(letters)], zeros.clone())).rows.swap_remove(2);
            let request = case(Call::Request, [5, q, 0], vec![v.clone(), vec![9; k], vec![9; k], vec![9]]);
            let second = v.iter().zip(&own).map(|(a, b)| (a + b) % 6).collect();
            let rows = vec![v.clone(), v, second, vec![products[letters as usize]]];
            (format!("five letters from {q}, {letters} apart"), Wanted { status: 0, rows }, request)
        })
        .collect()
}
