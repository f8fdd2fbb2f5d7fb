//! Compares the engine with a second implementation that shares nothing with it: the same inputs, and every byte of what comes out.

mod benches;
mod calls;
mod fenced;
mod fenced_call;
mod options;
mod process;
mod programs;
mod random;
mod report;
mod sizes;
mod spread;
mod streams;
mod worked;

use options::Options;
use report::Tally;
use std::process::ExitCode;
use std::time::Instant;

/// A part: the programs it runs, what it compares, and which kinds of case it has to have seen.
struct Part {
    name: &'static str,
    programs: &'static [&'static str],
    compare: fn(&Options) -> Tally,
    missing: fn(&Tally) -> Vec<String>,
}

const PARTS: [Part; 8] = [
    Part {
        name: worked::PART,
        programs: &["lookup", "key", "checkbook", "trials", "drills"],
        compare: worked::compare,
        missing: worked::missing,
    },
    Part { name: streams::PART, programs: &["lookup", "key", "checkbook"], compare: streams::compare, missing: streams::missing },
    Part { name: calls::PART, programs: &[], compare: calls::compare, missing: calls::missing },
    Part { name: "lookup", programs: &["lookup"], compare: programs::lookup, missing: programs::missing_inquiries },
    Part { name: "key", programs: &["key"], compare: programs::key, missing: programs::missing_inquiries },
    Part { name: "checkbook", programs: &["checkbook"], compare: programs::checkbook, missing: programs::missing_books },
    Part { name: "trials", programs: &["trials"], compare: benches::trials, missing: benches::missing_trials },
    Part { name: "drills", programs: &["drills"], compare: benches::drills, missing: benches::missing_drills },
];

fn main() -> ExitCode {
    let options = match Options::read(std::env::args().skip(1)) {
        Ok(options) => options,
        Err(usage) => {
            eprintln!("{usage}");
            return ExitCode::from(2);
        }
    };
    let parts = || PARTS.iter().filter(|part| options.part.as_deref().is_none_or(|name| name == part.name));
    for name in parts().flat_map(|part| part.programs) {
        let path = process::path_of(&options.crates, name);
        if !path.is_file() {
            eprintln!("{} is not there: run `rt run` in its crate's folder", path.display());
            return ExitCode::from(2);
        }
    }
    let (mut cases, mut failures) = (0, 0);
    for part in parts() {
        let (compared, failed) = run(part, &options);
        cases += compared;
        failures += failed;
    }
    println!("compare: {cases} cases compared, seed {}, {failures} failed", options.seed);
    if failures == 0 && cases > 0 {
        ExitCode::SUCCESS
    } else {
        ExitCode::FAILURE
    }
}

/// Runs a part and prints what it counted; gives how many cases it compared, and how many failed.
fn run(part: &Part, options: &Options) -> (u64, u64) {
    let start = Instant::now();
    let tally = (part.compare)(options);
    let missing = if options.case.is_some() { Vec::new() } else { (part.missing)(&tally) };
    println!("{}: {} cases in {:.1} s", part.name, tally.total(), start.elapsed().as_secs_f64());
    for (kind, count) in &tally.same {
        println!("  {count:>8} {kind}");
    }
    for difference in tally.differences.iter().take(options.told as usize) {
        println!("{difference}");
    }
    for kind in &missing {
        println!("MISSING: no case came to this: {kind}");
    }
    (tally.total(), (tally.differences.len() + missing.len()) as u64)
}
