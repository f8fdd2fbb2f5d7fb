//! The worked cases and the near errors of docs/SCHEME.md: each is run in both implementations, and both have to give what the
//! page says.

mod calls;
mod lines;
mod orders;
mod wrong_ways;

use crate::options::Options;
use crate::process::{path_of, run, Ended};
use crate::report::{Difference, Tally};
use std::panic::catch_unwind;

pub const PART: &str = "worked";

/// A case of a program: what it reads, and what it has to print.
struct Printed {
    name: &'static str,
    program: &'static str,
    input: String,
    wanted: String,
}

pub fn compare(options: &Options) -> Tally {
    let mut tally = Tally::default();
    for printed in lines::all() {
        held(options, &printed, &mut tally);
    }
    for (name, wanted, case) in calls::all().into_iter().chain(orders::all()) {
        calls::held(name, &wanted, &case, &mut tally);
    }
    for (name, right) in wrong_ways::all() {
        match right {
            Ok(()) => tally.count("wrong ways that give another result".to_string()),
            Err(why) => tally.differences.push(Difference {
                case: format!("--part {PART}, {name}"),
                input: "the page's wrong way".to_string(),
                engine: why,
                second: "(neither implementation is run)".to_string(),
            }),
        }
    }
    tally
}

/// All cases are run each time.
pub fn missing(_: &Tally) -> Vec<String> {
    Vec::new()
}

fn held(options: &Options, case: &Printed, tally: &mut Tally) {
    let input = case.input.as_bytes();
    let wanted = Ended::well(case.wanted.clone().into_bytes());
    let engine = run(&path_of(&options.crates, case.program), input);
    let second = catch_unwind(|| Ended::well(second_of(case.program)(input)));
    if engine == wanted && second.as_ref().is_ok_and(|second| *second == wanted) {
        return tally.count(format!("texts of {}", case.program));
    }
    tally.differences.push(Difference {
        case: format!("--part {PART}, {}", case.name),
        input: format!("{} reads {}\n  the page: {wanted}", case.program, case.input.escape_default()),
        engine: engine.to_string(),
        second: second.map_or("panicked".to_string(), |second| second.to_string()),
    });
}

fn second_of(program: &str) -> fn(&[u8]) -> Vec<u8> {
    match program {
        "lookup" => second::programs::lookup,
        "key" => second::programs::key,
        "checkbook" => second::programs::checkbook,
        "trials" => second::programs::trials,
        "drills" => second::programs::drills,
        _ => panic!("{program} is no program"),
    }
}
