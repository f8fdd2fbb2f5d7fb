//! Cases without a fault: requests, answers to them, and recoveries from sheets of many kinds.

use super::case::{Call, Case};
use crate::fenced::Empty;
use crate::fenced_call;
use crate::random::Random;
use crate::sizes::Sizes;

/// A case of some family, small ones oftener.
pub fn some(random: &mut Random, call: Call) -> Case {
    // the second implementation's answer takes its time for each digit of each vector
    let rarely = random.below(200);
    let most = match call {
        Call::Request => usize::MAX,
        Call::Recover if rarely < 50 => usize::MAX,
        Call::Recover => 1_000_000,
        Call::Answer if rarely == 0 => 20_000_000,
        Call::Answer if rarely < 20 => 1_000_000,
        Call::Answer => 20_000,
    };
    let sizes = Sizes::some(random, most);
    of(random, call, sizes)
}

/// A case of a family.
pub fn of(random: &mut Random, call: Call, sizes: Sizes) -> Case {
    match call {
        Call::Request => request(random, sizes),
        Call::Answer => answer(random, sizes),
        Call::Recover => recover(random, sizes),
    }
}

fn case(random: &mut Random, call: Call, sizes: Sizes, position: u32, rows: Vec<Vec<u8>>) -> Case {
    let empty = *random.pick(&[Empty::BetweenFences, Empty::Null, Empty::Dangling]);
    Case { call, h: sizes.h, q: sizes.q, position, rows, empty }
}

fn request(random: &mut Random, sizes: Sizes) -> Case {
    let k = sizes.dimension();
    let position = sizes.position(random);
    let long = random.between(2, 2 * k);
    let tape = k + *random.pick(&[0, 0, 1, long]);
    let tape = row_of_digits(random, tape);
    // what the rows hold that are only written to does not matter
    let rows = vec![tape, random.bytes(k), random.bytes(k), random.bytes(1)];
    case(random, Call::Request, sizes, position, rows)
}

/// Digits at random, and at times all the same.
fn row_of_digits(random: &mut Random, len: usize) -> Vec<u8> {
    match random.below(12) {
        0 => vec![random.digit(); len],
        1 => vec![5; len],
        _ => random.digits(len),
    }
}

/// A table: full, or with few entries that are not 0.
fn table(random: &mut Random, sizes: Sizes, full: bool) -> Vec<u8> {
    let n = sizes.positions();
    if full {
        return row_of_digits(random, n);
    }
    let mut table = vec![0; n];
    for _ in 0..random.below(40) {
        table[random.below(n)] = random.digit();
    }
    table
}

fn answer(random: &mut Random, sizes: Sizes) -> Case {
    let full = !random.once_in(4);
    let table = table(random, sizes, full);
    let query = row_of_digits(random, sizes.dimension());
    // an answer is added to what the sheet holds
    let sheet = match random.below(2) {
        0 => vec![0; sizes.sheet()],
        _ => random.digits(sizes.sheet()),
    };
    case(random, Call::Answer, sizes, 0, vec![table, query, sheet])
}

/// What a lookup comes to before its recovery: position, shift, two queries.
fn asked(random: &mut Random, sizes: Sizes) -> (u32, Vec<Vec<u8>>) {
    let request = request(random, sizes);
    let outcome = fenced_call::run(&request);
    assert_eq!(outcome.status, 0, "an honest request is taken");
    (request.position, outcome.rows)
}

pub fn sheet_of(random: &mut Random, sizes: Sizes, table: &[u8], query: &[u8]) -> Vec<u8> {
    let rows = vec![table.to_vec(), query.to_vec(), vec![0; sizes.sheet()]];
    let mut outcome = fenced_call::run(&case(random, Call::Answer, sizes, 0, rows));
    assert_eq!(outcome.status, 0, "an honest answer is taken");
    outcome.rows.swap_remove(2)
}

pub fn recover(random: &mut Random, sizes: Sizes) -> Case {
    let (mut position, rows) = asked(random, sizes);
    let small = sizes.positions() <= 5000;
    let mut tables = vec![table(random, sizes, small); 2];
    let entry = random.digit();
    tables.iter_mut().for_each(|table| table[position as usize] = entry);
    let mut shift = rows[3].clone();
    let kind = random.below(12);
    if kind == 0 {
        tables[1] = table(random, sizes, false);
    }
    let mut sheets: Vec<Vec<u8>> = (0..2).map(|i| sheet_of(random, sizes, &tables[i], &rows[1 + i])).collect();
    match kind {
        1 => sheets.swap(0, 1),
        2 => shift[0] = random.digit(),
        3 => position = sizes.position(random),
        4 => sheets = (0..2).map(|_| random.digits(sizes.sheet())).collect(),
        5 => change_digit(random, &mut sheets[0]),
        6 => change_digit(random, &mut sheets[1]),
        7 => sheets[random.below(2)].fill(0),
        _ => (),
    }
    let second = sheets.remove(1);
    let rows = vec![shift, sheets.remove(0), second, random.bytes(1)];
    case(random, Call::Recover, sizes, position, rows)
}

/// Another digit at one place, oftener among the first.
fn change_digit(random: &mut Random, sheet: &mut [u8]) {
    let end = *random.pick(&[6, 12, sheet.len()]);
    let place = random.below(end);
    sheet[place] = (sheet[place] + random.between(1, 5) as u8) % 6;
}
