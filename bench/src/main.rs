//! Times the engine against a hand-optimised version and against the second implementation, on the same inputs.

mod agree;
mod axis;
mod calls;
mod checks;
mod digits;
mod figures;
mod hand;
mod hand_answer;
mod hand_book;
mod inputs;
mod measure;
mod page;
mod plot;
mod processes;
mod processor;
mod shared;
mod table;
mod timing;
mod words;

use std::env;
use std::process::ExitCode;

/// Compares, measures and prints the tables; writes them to docs if asked to.
fn run(write: bool) -> Result<(), String> {
    agree::all()?;
    let results = measure::all()?;
    let tables = table::markdown(&results, &processor::told());
    print!("{tables}");
    if write {
        let picture = plot::svg(&results.answers, 5);
        page::write(&tables, &picture).map_err(|fault| format!("docs: {fault}"))?;
    }
    Ok(())
}

fn main() -> ExitCode {
    let words: Vec<String> = env::args().skip(1).collect();
    let words: Vec<&str> = words.iter().map(String::as_str).collect();
    let result = match words[..] {
        [] => run(false),
        ["--write"] => run(true),
        ["--book", checker] => processes::check_here(checker).map_err(|fault| fault.to_string()),
        _ => Err("usage: bench [--write]".to_string()),
    };
    match result {
        Ok(()) => ExitCode::SUCCESS,
        Err(fault) => {
            eprintln!("bench: {fault}");
            ExitCode::FAILURE
        }
    }
}
