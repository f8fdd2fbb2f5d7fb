//! The program `key`: the whole working of one lookup, as an examiner needs it.

use super::input::{reply, Done};
use super::tell;
use crate::digits::dot;
use crate::recovery::work;

/// The most digits that a line holds.
const MOST_DIGITS: usize = 30;

/// What it prints for its input.
pub fn print(input: &[u8]) -> String {
    reply(input, told)
}

/// The lines for a lookup that was read.
fn told(done: &Done) -> String {
    let [first, second] = &done.rows.queries;
    let [one, two] = &done.rows.sheets;
    // The first query is the tape digits that were used.
    let shift = dot(&done.family.u(done.position), first);
    let working = work(&done.family, done.position, shift, one, two);
    let mut lines = named_number("position", done.position as usize);
    lines += &named_row("tape digits", first);
    lines += &named_number("shift", usize::from(shift));
    lines += &named_row("first query", first);
    lines += &named_row("second query", second);
    lines += &named_sheet("first sheet", one);
    lines += &named_sheet("second sheet", two);
    for (at, y) in working.y.iter().enumerate() {
        lines += &named_row(&format!("Y{}", at + 1), &y.0);
    }
    lines += &named_row("W", &working.w.0);
    lines += &named_row("X", &working.x.0);
    lines += &named_number("entry", usize::from(done.read.entry));
    lines + &named_number("carried", done.read.carried)
}

/// A name and a number.
fn named_number(name: &str, number: usize) -> String {
    format!("{name:<15} {number}\n")
}

/// A name and a row, which goes on in further lines.
fn named_row(name: &str, row: &[u8]) -> String {
    let mut lines = String::new();
    let mut name = name;
    for part in row.chunks(MOST_DIGITS) {
        lines += &format!("{name:<15}{}\n", tell::row(part));
        name = "";
    }
    lines
}

/// A sheet's name alone on its line, then its value and the element of each coordinate.
fn named_sheet(name: &str, sheet: &[u8]) -> String {
    let (value, elements) = sheet.split_at(6);
    let mut lines = format!("{name}\n") + &named_row("  value", value);
    for (coordinate, element) in elements.chunks(6).enumerate() {
        lines += &named_row(&format!("  element {coordinate}"), element);
    }
    lines
}
