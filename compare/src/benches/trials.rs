//! Texts for `trials`: lines of every kind, as they should be, flawed, and of no kind at all.

use super::families::{self, Family};
use super::rows::{digits, flawed, position, row};
use crate::calls::lookups;
use crate::programs::books;
use crate::random::Random;
use crate::sizes::Sizes;

const LINES: usize = 2500;

/// What the lines of each first word have to come to, all in all; and, last, the answers to those that ask for nothing.
pub const COME_TO: &[(&str, &str)] = &[
    ("element", "taken, refused 1, refused 2"),
    ("elements", "taken, refused 1, refused 2"),
    ("write", "taken, refused 1"),
    ("six", "taken"),
    ("modulo", "taken"),
    ("weighed", "taken, refused 2"),
    ("entry", "taken, at odds"),
    ("recover", "taken, at odds, refused 3"),
    ("vectors", "taken, refused 1, refused 2"),
    ("draw", "taken, refused 1"),
    ("examine", "taken, refused 1, refused 2, refused 3, refused 4, refused 5"),
    ("book", "taken, refused 5"),
    ("unit", "taken, refused 3"),
    ("words", "taken, refused 3"),
    ("first", "taken, refused 3"),
    ("part", "taken, refused 3"),
    ("", "no such trial, no such trial of a family, no four elements, no six numbers"),
];

pub fn text(random: &mut Random) -> Vec<String> {
    (0..LINES).map(|_| line(random)).collect()
}

/// Every line is answered.
pub fn asked<'a>(lines: &'a [String], _: &[String]) -> Vec<&'a String> {
    lines.iter().collect()
}

fn line(random: &mut Random) -> String {
    match random.below(24) {
        0 => format!("element {} {} {}", element(random), power(random), amount(random)),
        1 => format!("elements {} {}", element(random), element(random)),
        2 => same_element(random),
        3 => {
            let over = any_row(random, 12);
            format!("write {} {over}", digits(random, 6))
        }
        4 => format!("six {} {}", any_row(random, 20), place(random)),
        5 => format!("modulo {}", any_row(random, 12)),
        6 => format!("weighed {} {} {} {}", element(random), element(random), element(random), element(random)),
        7 | 8 => format!("entry {}", entry_element(random)),
        9..=11 => recover(random),
        12 => vectors(random),
        13 => draw(random),
        14 | 15 => format!("examine {}", row(&book(random))),
        16 => format!("book {}", row(&book(random))),
        17 => families::at_limits(random, &["unit", "words", "first", "part"]),
        18 => nonsense(random),
        _ => of_family(random),
    }
}

fn element(random: &mut Random) -> String {
    let row = random.digits(6);
    flawed(random, &row)
}

fn same_element(random: &mut Random) -> String {
    let one = random.digits(6);
    let mut other = one.clone();
    if random.once_in(2) {
        other[random.below(6)] = random.digit();
    }
    format!("elements {} {}", row(&one), row(&other))
}

/// Up to so many bytes of any kind.
fn any_row(random: &mut Random, most: usize) -> String {
    let len = random.below(most + 1);
    row(&random.bytes(len))
}

fn power(random: &mut Random) -> String {
    let some = random.below(20).to_string();
    let large = (random.next() >> 1).to_string();
    random.pick(&[some.as_str(), &some, &some, &large, "18446744073709551615", "x"]).to_string()
}

fn amount(random: &mut Random) -> String {
    match random.below(10) {
        0 => "y".to_string(),
        _ => random.below(256).to_string(),
    }
}

fn place(random: &mut Random) -> String {
    let some = random.below(24).to_string();
    random.pick(&[some.as_str(), &some, &some, "18446744073709551615", "18446744073709551610", "z"]).to_string()
}

/// An element that is a digit times D, or near one, or any.
fn entry_element(random: &mut Random) -> String {
    let entry = random.digit();
    let mut x = [0, 2, 0, 3, 4, 3].map(|d| entry * d % 6);
    match random.below(8) {
        0 => return element(random),
        1 | 2 => x[random.below(6)] = random.digit(),
        _ => (),
    }
    row(&x)
}

/// Sheets of a lookup of any kind that a recovery may meet, or rows of any bytes and lengths.
fn recover(random: &mut Random) -> String {
    let sizes = Sizes::some(random, 3000);
    if random.once_in(4) {
        let (h, q) = *random.pick(&[(0, 2), (6, 2), (1, 1), (5, 17), (2, 2), (3, 2), (1, 7)]);
        let (one, other) = (any_row(random, 80), any_row(random, 80));
        return format!("recover {h} {q} {} {} {one} {other}", position(random, 8), random.below(256));
    }
    let case = lookups::recover(random, sizes);
    let rows: Vec<String> = case.rows.iter().map(|bytes| row(bytes)).collect();
    format!("recover {} {} {} {} {} {}", case.h, case.q, case.position, case.rows[0][0], rows[1], rows[2])
}

fn vectors(random: &mut Random) -> String {
    let len = *random.pick(&[0, 1, 2, 7, 40, 300]);
    let (one, other) = (random.digits(len), random.digits(len));
    format!("vectors {} {}", flawed(random, &one), flawed(random, &other))
}

fn draw(random: &mut Random) -> String {
    let len = random.below(30);
    let more = *random.pick(&[0, 0, 0, 1, 5]);
    let bytes = row(&random.bytes(len));
    format!("draw {bytes} {}", row(&random.bytes(len + more)))
}

/// A book's bytes, not too many, sound or not.
fn book(random: &mut Random) -> Vec<u8> {
    loop {
        let number = 1 + random.below(1000) as u64;
        let bytes = books::input(random, number);
        if bytes.len() <= 600 {
            return bytes;
        }
    }
}

/// A family and what is asked of it.
fn of_family(random: &mut Random) -> String {
    let Family { text, count, dimension, .. } = families::trial(random);
    let t = position(random, count);
    match random.below(8) {
        0 => text,
        1 if dimension <= 200 => format!("{text} {t}"),
        _ => {
            let exact = if dimension <= 40 { 6 * dimension } else { dimension };
            let len = *random.pick(&[exact, exact, exact + 3, exact.saturating_sub(1), dimension, 1, 0]);
            let bytes = if random.once_in(2) { random.digits(len) } else { random.bytes(len) };
            format!("{text} {t} {} {} {}", amount(random), power(random), row(&bytes))
        }
    }
}

/// Lines that ask for no trial, or for none of the family that they make.
const NONSENSE: [&str; 39] = [
    "",
    "element",
    "element 000000000000",
    "elements 000000000000",
    "write 00",
    "six 00",
    "modulo",
    "modulo 00 00",
    "weighed",
    "weighed 000000000000",
    "weighed 00 00 00 00 00",
    "entry",
    "entry 00 00",
    "recover",
    "recover 1 2 0 0 00",
    "vectors 00",
    "vectors 00 00 00",
    "draw 00",
    "examine",
    "examine 00 00",
    "book",
    "unit",
    "words",
    "words 1",
    "first 1 2",
    "part 1",
    "Unit 3",
    "unit 3 0 1",
    "unit 3 0 1 2",
    "unit 3 0 1 2 00 00",
    "words 1 2 0 1",
    "words 1 2 0 1 2",
    "part 1 1 0 0",
    "first 1 1 2 0 0",
    "weigh 00 00 00 00",
    "lookup 00",
    "0",
    "-",
    "no such trial",
];

fn nonsense(random: &mut Random) -> String {
    random.pick(&NONSENSE).to_string()
}
