//! The programs `lookup`, `key` and `checkbook`, run as processes, and what the second implementation says that they print.

pub mod books;
pub mod inquiries;

use crate::options::Options;
use crate::process::{builds_of, run, Ended};
use crate::random::Random;
use crate::report::{Difference, Tally};
use crate::spread::over_cores;
use std::panic::catch_unwind;

const CASES: u64 = 4_000;

/// A program: its name, what writes an input for it, and the second implementation of it.
struct Program {
    name: &'static str,
    input: fn(&mut Random, u64) -> Vec<u8>,
    second: fn(&[u8]) -> Vec<u8>,
}

const LOOKUP: Program = Program { name: "lookup", input: inquiries::input, second: second::programs::lookup };
const KEY: Program = Program { name: "key", input: inquiries::input, second: second::programs::key };
const CHECKBOOK: Program = Program { name: "checkbook", input: books::input, second: second::programs::checkbook };

pub fn lookup(options: &Options) -> Tally {
    LOOKUP.compare(options)
}

pub fn key(options: &Options) -> Tally {
    KEY.compare(options)
}

pub fn checkbook(options: &Options) -> Tally {
    CHECKBOOK.compare(options)
}

impl Program {
    fn compare(&self, options: &Options) -> Tally {
        let (first, end) = options.cases(CASES);
        let builds = builds_of(&options.crates, self.name);
        over_cores(first, end, |number, tally| {
            let input = (self.input)(&mut Random::of(options.seed, self.name, number), number);
            // by turns, so that each build gets inputs of every kind
            let engine = run(&builds[number as usize % builds.len()], &input);
            match catch_unwind(|| Ended::well((self.second)(&input))) {
                Ok(second) if engine == second => tally.count(kind(&second.printed)),
                second => tally.differences.push(Difference {
                    case: format!("--part {} --seed {} --case {number}", self.name, options.seed),
                    input: format!("{} bytes: {}", input.len(), input.escape_ascii()),
                    engine: engine.to_string(),
                    second: second.map_or("panicked".to_string(), |ended| ended.to_string()),
                }),
            }
        })
    }
}

/// A refusal by its number, and anything else as taken.
fn kind(printed: &[u8]) -> String {
    let text = String::from_utf8_lossy(printed);
    let refusal = text.lines().find_map(|line| line.strip_prefix("refused "));
    let number = refusal.and_then(|rest| rest.split(' ').next());
    number.map_or("taken".to_string(), |number| format!("refused {number}"))
}

fn missing(tally: &Tally, kinds: &[&str]) -> Vec<String> {
    kinds.iter().filter(|kind| tally.of_kind(kind) == 0).map(|kind| kind.to_string()).collect()
}

/// What neither `lookup` nor `key` came to.
pub fn missing_inquiries(tally: &Tally) -> Vec<String> {
    missing(tally, &["taken", "refused 1", "refused 2", "refused 3", "refused 6", "refused 7"])
}

/// What `checkbook` did not come to.
pub fn missing_books(tally: &Tally) -> Vec<String> {
    missing(tally, &["taken", "refused 1", "refused 2", "refused 3", "refused 4", "refused 5"])
}
