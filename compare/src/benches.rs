//! The test benches `trials` and `drills`: texts of thousands of lines, compared line by line.

mod drills;
mod families;
mod hosts;
mod rows;
mod sessions;
mod trials;

use crate::options::Options;
use crate::process::{path_of, run};
use crate::random::Random;
use crate::report::{Difference, Tally};
use crate::spread::over_cores;
use std::panic::catch_unwind;

/// A bench: its name, what writes its texts and how many, and the second implementation of it.
struct Bench {
    name: &'static str,
    text: fn(&mut Random) -> Vec<String>,
    texts: u64,
    second: fn(&[u8]) -> Vec<u8>,
    /// Which lines of a text are answered, by the answers.
    asked: for<'a> fn(&'a [String], &[String]) -> Vec<&'a String>,
}

const TRIALS: Bench = Bench { name: "trials", text: trials::text, texts: 16, second: second::programs::trials, asked: trials::asked };
const DRILLS: Bench = Bench { name: "drills", text: drills::text, texts: 16, second: second::programs::drills, asked: drills::asked };

pub fn trials(options: &Options) -> Tally {
    TRIALS.compare(options)
}

pub fn drills(options: &Options) -> Tally {
    DRILLS.compare(options)
}

/// What `trials` did not come to.
pub fn missing_trials(tally: &Tally) -> Vec<String> {
    missing(tally, trials::COME_TO)
}

/// What `drills` did not come to.
pub fn missing_drills(tally: &Tally) -> Vec<String> {
    missing(tally, drills::COME_TO)
}

fn missing(tally: &Tally, all: &[(&str, &str)]) -> Vec<String> {
    let kinds = all.iter().flat_map(|(word, came)| came.split(", ").map(move |came| kind_of(word, came)));
    kinds.filter(|kind| !tally.same.contains_key(kind)).collect()
}

/// A kind of answer; where a line asks for nothing, the word is empty.
fn kind_of(word: &str, came: &str) -> String {
    match word {
        "" => came.to_string(),
        _ => format!("{word}: {came}"),
    }
}

impl Bench {
    fn compare(&self, options: &Options) -> Tally {
        let (first, end) = options.cases(self.texts);
        over_cores(first, end, |number, tally| {
            let lines = (self.text)(&mut Random::of(options.seed, self.name, number));
            let name = format!("--part {} --seed {} --case {number}", self.name, options.seed);
            self.one_text(options, &lines, &name, tally);
        })
    }

    fn one_text(&self, options: &Options, lines: &[String], name: &str, tally: &mut Tally) {
        let text = lines.join("\n") + "\n";
        let engine = run(&path_of(&options.crates, self.name), text.as_bytes());
        let second = catch_unwind(|| (self.second)(text.as_bytes())).unwrap_or_else(|_| b"panicked".to_vec());
        if engine.status != Some(0) || !engine.complained.is_empty() {
            tally.differences.push(Difference {
                case: name.to_string(),
                input: kept(self.name, &text),
                engine: engine.to_string(),
                second: "status 0, and no complaint".to_string(),
            });
            return;
        }
        let engine = answers(&engine.printed);
        let asked = (self.asked)(lines, &engine);
        line_by_line(&asked, &engine, &answers(&second), tally, |line| {
            format!("{name}, answer {}; the whole input: {}", line + 1, kept(self.name, &text))
        });
    }
}

fn answers(printed: &[u8]) -> Vec<String> {
    String::from_utf8_lossy(printed).lines().map(str::to_string).collect()
}

/// Compares as many answers as any has.
fn line_by_line(asked: &[&String], engine: &[String], second: &[String], tally: &mut Tally, case: impl Fn(usize) -> String) {
    let none = "(no line)".to_string();
    for line in 0..asked.len().max(engine.len()).max(second.len()) {
        let (one, other) = (engine.get(line).unwrap_or(&none), second.get(line).unwrap_or(&none));
        match asked.get(line) {
            Some(input) if one == other && *one != none => tally.count(kind(input, one)),
            input => {
                tally.differences.push(Difference {
                    case: case(line),
                    input: input.map_or(none.clone(), |input| input.to_string()),
                    engine: one.clone(),
                    second: other.clone(),
                });
                // after one answer too few or too many all others differ
                if asked.len() != engine.len() || asked.len() != second.len() {
                    return;
                }
            }
        }
    }
}

/// The first word of a line and what it came to; of a line that asks for nothing, the answer alone.
fn kind(input: &str, answer: &str) -> String {
    let word = input.split(' ').next().unwrap_or("");
    match answer.split_once("refused ") {
        Some((_, rest)) => kind_of(word, &format!("refused {}", rest.chars().take_while(char::is_ascii_digit).collect::<String>())),
        None if answer.ends_with("at odds") => kind_of(word, "at odds"),
        None if answer.starts_with("no ") || answer == "out of turn" => kind_of("", answer),
        None => kind_of(word, "taken"),
    }
}

/// Keeps a whole text, so that it can be run by hand; gives the name of its file.
fn kept(bench: &str, text: &str) -> String {
    let path = format!("target/compare-{bench}.txt");
    match std::fs::write(&path, text) {
        Ok(()) => path,
        Err(error) => format!("(not kept, {path}: {error})"),
    }
}
