//! What is measured: each call and the book check, on the same inputs, for all families.

use crate::calls::{Answer, Calls, ENGINE, HAND, SECOND, SHARED};
use crate::inputs::{BOOKS, LOOKUPS, Numbers, book};
use crate::processes::{Checker, checked};
use crate::timing::{Timed, by_turns};
use crate::words::Words;

/// The times of one call or check on one input.
pub struct Row {
    pub words: Words,
    /// What the time is expected to grow with.
    pub steps: usize,
    pub engine: Timed,
    pub hand: Timed,
    pub second: Timed,
    /// The other way to answer.
    pub shared: Option<Timed>,
}

impl Row {
    fn new(words: Words, steps: usize, [engine, hand, second]: [Timed; 3]) -> Row {
        Row {
            words,
            steps,
            engine,
            hand,
            second,
            shared: None,
        }
    }

    /// How many times longer than the hand-optimised version the engine takes.
    pub fn to_hand(&self) -> f64 {
        self.engine.best / self.hand.best
    }

    /// How many times longer than the engine the second implementation takes.
    pub fn gain(&self) -> f64 {
        self.second.best / self.engine.best
    }
}

/// All that was measured.
#[derive(Default)]
pub struct Results {
    pub requests: Vec<Row>,
    pub answers: Vec<Row>,
    pub sparse: Vec<Row>,
    pub recoveries: Vec<Row>,
    pub books: Vec<Row>,
}

/// Measures everything.
pub fn all() -> Result<Results, String> {
    let mut results = Results::default();
    for (h, q) in LOOKUPS {
        eprintln!("lookups of words {h} {q}");
        lookups(h, q, &mut results).map_err(|fault| format!("words {h} {q}: {fault}"))?;
    }
    for (h, q) in BOOKS {
        eprintln!("book of words {h} {q}");
        let words = family(h, q)?;
        results
            .books
            .push(check(words).map_err(|fault| format!("book {h} {q}: {fault}"))?);
    }
    Ok(results)
}

fn family(h: u32, q: u32) -> Result<Words, String> {
    Words::new(h, q).ok_or(format!("no words of {h} letters from {q}"))
}

/// The request, the answers and the recovery of one lookup in a family.
fn lookups(h: u32, q: u32, results: &mut Results) -> Result<(), String> {
    let words = family(h, q)?;
    let mut numbers = Numbers::new(u64::from(32 * h + q));
    let position = numbers.below(words.count());
    let tape = numbers.digits(words.dimension());
    let full = numbers.full_table(words.count());
    let sparse = numbers.sparse_table(words.count());

    let (request, queries) = requests(words, position as u32, &tape)?;
    let (first, rest) = queries.split_at(words.dimension());
    let (second, shift) = rest.split_at(words.dimension());
    results.requests.push(request);
    results.answers.push(answers(words, &full, first)?);
    results.sparse.push(answers(words, &sparse, first)?);
    let sheets = [first, second].map(|query| sheet(words, &full, query));
    let (recovery, entry) = recoveries(words, position as u32, shift, &sheets)?;
    results.recoveries.push(recovery);
    if entry == full[position] {
        Ok(())
    } else {
        Err("the lookup read another entry".to_string())
    }
}

/// Requests for a position; and what one writes, the two queries and the shift.
fn requests(words: Words, position: u32, tape: &[u8]) -> Result<(Row, Vec<u8>), String> {
    let (h, q, k) = (words.h as u32, words.q as u32, words.dimension());
    let ask = |calls: Calls| {
        move |row: &mut Vec<u8>| {
            let (first, rest) = row.split_at_mut(k);
            let (second, shift) = rest.split_at_mut(k);
            (calls.request)(h, q, position, tape, first, second, shift)
        }
    };
    let size = 2 * k + 1;
    let times = by_turns(size, [&ask(ENGINE), &ask(HAND), &ask(SECOND)])?;
    let mut queries = vec![0; size];
    ask(ENGINE)(&mut queries);
    Ok((Row::new(words, k, times), queries))
}

/// The engine's answer to a query.
fn sheet(words: Words, table: &[u8], query: &[u8]) -> Vec<u8> {
    let mut sheet = vec![0; words.sheet()];
    (ENGINE.answer)(words.h as u32, words.q as u32, table, query, &mut sheet);
    sheet
}

/// Recoveries from two sheets, and the entry.
fn recoveries(
    words: Words,
    position: u32,
    shift: &[u8],
    [one, two]: &[Vec<u8>; 2],
) -> Result<(Row, u8), String> {
    let (h, q) = (words.h as u32, words.q as u32);
    let read = |calls: Calls| {
        move |row: &mut Vec<u8>| (calls.recover)(h, q, position, shift, one, two, row)
    };
    let times = by_turns(1, [&read(ENGINE), &read(HAND), &read(SECOND)])?;
    let mut entry = vec![9];
    read(ENGINE)(&mut entry);
    Ok((Row::new(words, words.dimension(), times), entry[0]))
}

/// Answers to one query from one table.
fn answers(words: Words, table: &[u8], query: &[u8]) -> Result<Row, String> {
    let (h, q) = (words.h as u32, words.q as u32);
    let answer = |answer: Answer| {
        move |sheet: &mut Vec<u8>| {
            sheet.fill(0);
            answer(h, q, table, query, sheet)
        }
    };
    let [engine, hand, shared, second] = by_turns(
        words.sheet(),
        [
            &answer(ENGINE.answer),
            &answer(HAND.answer),
            &answer(SHARED),
            &answer(SECOND.answer),
        ],
    )?;
    let entries = table.iter().filter(|entry| **entry != 0).count();
    let row = Row::new(words, entries, [engine, hand, second]);
    Ok(Row {
        shared: Some(shared),
        ..row
    })
}

/// The check of a family's book, by three processes.
fn check(words: Words) -> Result<Row, String> {
    let bytes = book(words);
    let run = |checker: Checker| {
        let bytes = &bytes;
        move |text: &mut Vec<u8>| match checked(checker, bytes) {
            Ok(printed) => {
                *text = printed;
                0
            }
            Err(fault) => {
                eprintln!("{fault}");
                1
            }
        }
    };
    let times = by_turns(
        0,
        [
            &run(Checker::Engine),
            &run(Checker::Hand),
            &run(Checker::Second),
        ],
    )?;
    let steps = words.count() * words.count() * words.dimension();
    Ok(Row::new(words, steps, times))
}
