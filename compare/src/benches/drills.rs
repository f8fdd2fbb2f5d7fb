//! Texts for `drills`: paragraphs of families of every kind, with one session through all of them.

use super::families::{self, Family};
use super::hosts;
use super::rows::{digits, flawed, row};
use super::sessions::Session;
use crate::programs::inquiries;
use crate::random::Random;
use crate::sizes::LARGEST;

const LINES: usize = 2750;

/// What the lines of each first word have to come to, all in all; and, last, the answers to those that ask for nothing.
pub const COME_TO: &[(&str, &str)] = &[
    ("unit", "taken"),
    ("words", "taken"),
    ("book", "taken, refused 5"),
    ("first", "taken, refused 3"),
    ("host", "taken, refused 2, refused 3, refused 6, refused 9"),
    ("answer", "taken, refused 1, refused 2, refused 3"),
    ("dense", "taken, refused 2, refused 3"),
    ("change", "taken, refused 2, refused 3, refused 6"),
    ("lookup", "taken, refused 1, refused 2, refused 3, refused 6, refused 7"),
    ("counters", "taken"),
    ("open", "taken, refused 2"),
    ("fits", "taken, refused 3"),
    ("check", "taken, refused 1, refused 3, refused 6, refused 7"),
    ("request", "taken, refused 1, refused 3, refused 6, refused 7"),
    ("round", "taken, refused 1, refused 3, refused 6, refused 7, refused 8"),
    ("recover", "taken, refused 1, refused 2, refused 3, refused 8"),
    ("ask", "taken, refused 8"),
    ("abandon", "taken"),
    ("", "no such family, no such host, out of turn, no such drill"),
];

pub fn text(random: &mut Random) -> Vec<String> {
    let mut session = Session::at_first();
    let mut lines = Vec::new();
    while lines.len() < LINES {
        paragraph(random, &mut session, &mut lines);
        lines.push(String::new());
    }
    lines.extend(largest(random));
    lines
}

/// A line is answered if it is not empty, and if there is a family, which the answer to its paragraph's first line tells.
pub fn asked<'a>(lines: &'a [String], answers: &[String]) -> Vec<&'a String> {
    let mut asked = Vec::new();
    for paragraph in lines.split(|line| line.is_empty()) {
        let is_family = answers.get(asked.len()).is_some_and(|answer| answer.starts_with("count "));
        asked.extend(paragraph.iter().take(if is_family { paragraph.len() } else { 1 }));
    }
    asked
}

/// A paragraph of the largest family of words or of units: lookups of some position and of the last, in tables of few entries.
fn largest(random: &mut Random) -> Vec<String> {
    let family = if random.once_in(2) { families::words(LARGEST) } else { families::unit(4096) };
    let (n, k) = (family.count, family.dimension);
    let sheet = 6 * (1 + k);
    // a lookup may wait
    let mut lines = vec![family.text, "abandon".to_string(), format!("open {}", digits(random, 3 * k + 1))];
    for t in [random.below(n), n - 1] {
        let host = format!("c:{n}:0={},{}={},{t}={}", random.digit(), n - 1, random.digit(), random.digit());
        lines.push(format!("round {t} {k} {k} {sheet} {sheet} {host} {host}+c:{n}"));
    }
    let t = random.below(n);
    let host = format!("c:{n}:{t}={}", random.digit());
    lines.extend([format!("request {t} {k} {k}"), format!("ask {host} {host}")]);
    lines.extend([format!("request {n} {k} {k}"), format!("request 0 {k} {k}"), "counters".to_string()]);
    lines
}

fn paragraph(random: &mut Random, session: &mut Session, lines: &mut Vec<String>) {
    if random.once_in(4) {
        return lines.push(no_family(random));
    }
    let family = families::some(random);
    lines.push(family.text.clone());
    for _ in 0..random.between(5, 40) {
        lines.push(line(random, session, &family));
    }
}

/// A first line with which no family may be made, and no drills.
fn no_family(random: &mut Random) -> String {
    match random.below(3) {
        0 => random.pick(&["family", "unit", "unit 3 3", "words 3", "first 3", "first 1 last 2 unit 4", "Unit 3", "book", "0"]).to_string(),
        _ => families::at_limits(random, &["unit", "words", "first words", "first unit", "first first"]),
    }
}

fn line(random: &mut Random, session: &mut Session, family: &Family) -> String {
    match random.below(20) {
        0 => format!("host {}", hosts::flawed(random, family.count)),
        1 => {
            let table = random.digits(family.count);
            format!("host {}", hosts::of_table(random, &table))
        }
        2..=5 => answer(random, family),
        6 => hosts::dense_line(random),
        7 => hosts::change_line(random),
        8 => lookup(random),
        9 => nonsense(random),
        _ => session.line(random, family),
    }
}

fn answer(random: &mut Random, family: &Family) -> String {
    let table = random.digits(family.count);
    let host = match random.below(8) {
        0 => hosts::flawed(random, family.count),
        _ => hosts::of_table(random, &table),
    };
    let (query, sheet) = (random.digits(family.dimension), random.digits(6 * (1 + family.dimension)));
    format!("answer {host} {} {}", flawed(random, &query), flawed(random, &sheet))
}

/// An inquiry of few bytes.
fn lookup(random: &mut Random) -> String {
    loop {
        let number = random.below(1000) as u64;
        let input = inquiries::input(random, number);
        if input.len() <= 1000 {
            return format!("lookup {}", row(&input));
        }
    }
}

fn nonsense(random: &mut Random) -> String {
    let lines = [
        "drill",
        "host",
        "host d:00 d:00",
        "answer d:00 00",
        "open",
        "request 0 1",
        "check 0 1 1 12",
        "change",
        "dense",
        "round 0 1 1 12 12 d:00",
        "Lookup 00",
        "counters now",
        "fits 1",
        "recover -",
        "ask c:1",
        "abandon now",
        "unit 3",
        "0",
    ];
    random.pick(&lines).to_string()
}
