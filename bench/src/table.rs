//! The table of measurements as Markdown: times, ratios, growth, and whether the aims are reached.

use crate::figures::{grouped, ratio, time};
use crate::measure::{Results, Row};
use crate::timing::Timed;

/// The most that the engine's answer may take, in answers of the hand-optimised version.
const MOST_TO_HAND: f64 = 1.5;

/// The least that the second implementation takes at the largest size, in answers of the engine.
const LEAST_GAIN: f64 = 50.0;

/// What time is set against.
struct Steps {
    name: &'static str,
    /// Whether a step takes longer for words of more letters, so that only families of as many letters show how time grows.
    by_letters: bool,
}

const NONZERO_ENTRIES: Steps = Steps {
    name: "Nonzero entries",
    by_letters: true,
};

const DIMENSION: Steps = Steps {
    name: "Dimension",
    by_letters: true,
};

const PRODUCTS: Steps = Steps {
    name: "Products of two digits",
    by_letters: false,
};

/// All tables.
pub fn markdown(results: &Results, processor: &str) -> String {
    let Results {
        requests,
        answers,
        sparse,
        recoveries,
        books,
    } = results;
    [
        format!("Measured on {processor}.\n"),
        aims(answers, sparse),
        section("Answers, no entry 0", answers, &NONZERO_ENTRIES),
        section(
            "Answers, one entry in a hundred not 0",
            sparse,
            &NONZERO_ENTRIES,
        ),
        section("Requests", requests, &DIMENSION),
        section("Recoveries", recoveries, &DIMENSION),
        section("Book checks, as processes", books, &PRODUCTS),
    ]
    .join("\n")
}

/// Whether the aims are reached.
fn aims(answers: &[Row], sparse: &[Row]) -> String {
    let Some(largest) = answers.last() else {
        return String::new();
    };
    let all = answers.iter().chain(sparse);
    let worst = all
        .max_by(|a, b| a.to_hand().total_cmp(&b.to_hand()))
        .unwrap_or(largest);
    let within = |ratio: f64| verdict(ratio <= MOST_TO_HAND);
    format!(
        "- Answer at the largest size, engine / hand-optimised: {}. Aim: at most {MOST_TO_HAND}, {}.\n\
         - The same where it is greatest, {}: {}. Aim: at most {MOST_TO_HAND}, {}.\n\
         - Answer at the largest size, second / engine: {}. Aim: at least {LEAST_GAIN}, {}.\n",
        ratio(largest.to_hand()),
        within(largest.to_hand()),
        family(worst),
        ratio(worst.to_hand()),
        within(worst.to_hand()),
        ratio(largest.gain()),
        verdict(largest.gain() >= LEAST_GAIN),
    )
}

fn verdict(reached: bool) -> &'static str {
    if reached { "reached" } else { "missed" }
}

/// The times of one call, and how they grow.
fn section(title: &str, rows: &[Row], steps: &Steps) -> String {
    format!("### {title}\n\n{}\n{}", times(rows), growth(rows, steps))
}

fn times(rows: &[Row]) -> String {
    let shared = rows.iter().any(|row| row.shared.is_some());
    let mut head = vec![
        "Family",
        "Entries",
        "Dimension",
        "Engine",
        "Hand-optimised",
        "Second",
    ];
    head.extend(["Engine / hand", "Second / engine"]);
    if shared {
        head.push("Shared work");
    }
    let body = rows.iter().map(|row| {
        let mut cells = vec![
            family(row),
            grouped(row.words.count()),
            grouped(row.words.dimension()),
            cell(&row.engine),
            cell(&row.hand),
            cell(&row.second),
            ratio(row.to_hand()),
            ratio(row.gain()),
        ];
        cells.extend(row.shared.as_ref().map(cell));
        cells
    });
    lines(&head, body)
}

/// How the times grow: of each row the time for a step, and the exponent of growth since the row above it.
fn growth(rows: &[Row], steps: &Steps) -> String {
    let mut head = vec![
        "Family",
        steps.name,
        "Engine, each",
        "Hand, each",
        "Second, each",
    ];
    head.extend(["Engine grows", "Hand grows", "Second grows"]);
    let mut rows: Vec<&Row> = rows.iter().collect();
    rows.sort_by_key(|row| (if steps.by_letters { row.words.h } else { 0 }, row.steps));
    let body = rows.iter().enumerate().map(|(i, row)| {
        let above = rows[..i].last();
        let above = above.filter(|above| above.words.h == row.words.h || !steps.by_letters);
        let mut cells = vec![family(row), grouped(row.steps)];
        cells.extend(ALL.map(|of| time(of(row).best / row.steps as f64)));
        cells.extend(ALL.map(|of| above.map_or(String::new(), |above| exponent(above, row, of))));
        cells
    });
    lines(&head, body)
}

/// The three times of a row.
const ALL: [fn(&Row) -> &Timed; 3] = [|row| &row.engine, |row| &row.hand, |row| &row.second];

/// The exponent with which a time grows from one row to another: 1 is in proportion to the steps.
fn exponent(from: &Row, to: &Row, of: fn(&Row) -> &Timed) -> String {
    if from.steps == to.steps {
        return String::new();
    }
    let times = of(to).best / of(from).best;
    let steps = to.steps as f64 / from.steps as f64;
    format!("{:.2}", times.ln() / steps.ln())
}

/// The lines of a table: all columns but the first to the right.
fn lines(head: &[&str], body: impl Iterator<Item = Vec<String>>) -> String {
    let rule = head
        .iter()
        .enumerate()
        .map(|(i, _)| if i == 0 { "---" } else { "--:" });
    let mut text = format!(
        "| {} |\n|{}|\n",
        head.join(" | "),
        rule.collect::<Vec<_>>().join("|")
    );
    for cells in body {
        text += &format!("| {} |\n", cells.join(" | "));
    }
    text
}

fn family(row: &Row) -> String {
    format!("h = {}, q = {}", row.words.h, row.words.q)
}

/// The best time, and how much longer the median was.
fn cell(timed: &Timed) -> String {
    format!("{} +{:.0}%", time(timed.best), 100.0 * timed.spread())
}
