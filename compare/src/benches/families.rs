//! Families as the benches' lines name them, with their sizes.

use super::rows::row;
use crate::programs::books;
use crate::random::Random;
use crate::sizes::Sizes;

/// Words that make a family, and its count and dimension.
#[derive(Clone)]
pub struct Family {
    pub text: String,
    pub count: usize,
    pub dimension: usize,
    /// Where it is a whole family of words.
    pub words: Option<Sizes>,
}

/// A small family of any kind. (The first part of a family has the word `first` before it.)
pub fn some(random: &mut Random) -> Family {
    match random.below(10) {
        0 | 1 => unit(random.between(1, 9)),
        2 => book(random),
        3..=6 => {
            let most = *random.pick(&[60, 600, 600, 8000]);
            words(Sizes::some(random, most))
        }
        _ => first(random),
    }
}

pub fn unit(n: usize) -> Family {
    Family { text: format!("unit {n}"), count: n, dimension: n, words: None }
}

pub fn words(sizes: Sizes) -> Family {
    let text = format!("words {} {}", sizes.h, sizes.q);
    Family { text, count: sizes.positions(), dimension: sizes.dimension(), words: Some(sizes) }
}

/// A book, which now and then is refused; then the sizes are those that it would have had.
pub fn book(random: &mut Random) -> Family {
    let vectors = loop {
        let vectors = books::some(random);
        if vectors.u.len() * vectors.u[0].len() <= 200 {
            break vectors;
        }
    };
    let said = vectors.said();
    let text = format!("book {}", row(&vectors.written(&said)));
    Family { text, count: vectors.u.len(), dimension: vectors.u[0].len(), words: None }
}

/// The first part of a family, as `drills` names it.
fn first(random: &mut Random) -> Family {
    let sizes = Sizes::some(random, 600);
    let whole = match random.below(4) {
        0 => unit(random.between(1, 9)),
        1 => book(random),
        2 => words(sizes),
        _ => part(random, words(sizes)),
    };
    part(random, whole)
}

fn part(random: &mut Random, whole: Family) -> Family {
    let m = random.between(1, whole.count);
    Family { text: format!("first {m} {}", whole.text), count: m, dimension: whole.dimension, words: None }
}

/// A family of words, or the first part of one, as `trials` names it, or the first part of a first part of a unit family.
pub fn trial(random: &mut Random) -> Family {
    let most = *random.pick(&[60, 600, 600, 8000, 300_000]);
    let sizes = Sizes::some(random, most);
    match random.below(6) {
        0 => unit(random.between(1, 12)),
        1 => {
            let m = random.between(1, sizes.positions());
            Family { text: format!("first {m} {} {}", sizes.h, sizes.q), count: m, dimension: sizes.dimension(), words: None }
        }
        2 => {
            let n = random.between(1, 9);
            let m = random.between(1, n + 1);
            Family { text: format!("part {m} {n}"), count: m, dimension: n + 2, words: None }
        }
        3 => book(random),
        _ => words(sizes),
    }
}

/// Sizes that are refused, or just not, with no further words.
pub fn at_limits(random: &mut Random, kinds: &[&str]) -> String {
    let letters = *random.pick(&["0", "1", "5", "6", "17", "4294967297", "18446744073709551615", "x"]);
    let alphabet = *random.pick(&["0", "1", "2", "16", "17", "4294967298", "18446744073709551615", "x"]);
    let m = *random.pick(&["0", "1", "32", "33", "1048576", "1048577", "18446744073709551615", "x"]);
    let unit = *random.pick(&["0", "1", "4095", "4096", "4097", "65537", "4294967297", "18446744073709551615", "x"]);
    match *random.pick(kinds) {
        "unit" => format!("unit {unit}"),
        "words" => format!("words {letters} {alphabet}"),
        "first words" => format!("first {m} words {letters} {alphabet}"),
        "first first" => format!("first {} first {m} words {letters} {alphabet}", random.pick(&["0", "1", "8", "9", "1048577"])),
        "first unit" => format!("first {m} unit {unit}"),
        "first" => format!("first {m} {letters} {alphabet}"),
        _ => format!("part {m} {}", random.pick(&["0", "1", "31", "32", "4093", "4094", "4095", "4294967297"])),
    }
}
