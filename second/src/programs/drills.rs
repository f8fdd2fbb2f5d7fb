//! The test bench `drills`: paragraphs, each of a family and the drills with it. One session goes through all of them.

mod calls;
mod hosts;

use super::bench::{lines, number, row, words};
use super::{lookup, tell};
use crate::family::Family;
use crate::fault::Fault;
use crate::session::Ready;
use calls::Turn;

/// Where the bench stands among the paragraphs.
enum Paragraph {
    /// Before a first line.
    Between,
    /// After a first line that made a family.
    Of(Family),
    /// After a first line that made none: the others are passed over.
    PassedOver,
}

/// What it prints for its input.
pub fn print(input: &[u8]) -> String {
    let mut turn = Turn::Ready(first_session());
    let mut paragraph = Paragraph::Between;
    let mut printed = String::new();
    for line in lines(input) {
        if line.is_empty() {
            paragraph = Paragraph::Between;
            continue;
        }
        let words = words(line);
        match &paragraph {
            Paragraph::Between => {
                let (next, answer) = open_paragraph(&words);
                paragraph = next;
                printed += &(answer + "\n");
            }
            Paragraph::Of(family) => {
                let (next, answer) = drill(family, turn, &words);
                turn = next;
                printed += &(answer + "\n");
            }
            Paragraph::PassedOver => (),
        }
    }
    turn.end();
    printed
}

/// The session at first: on the unit family of 1, with a tape of no digits.
fn first_session() -> Ready {
    let opened = Family::unit(1).and_then(|family| Ready::open(&family, Vec::new()));
    opened.expect("the unit family of 1 and an empty tape are never refused")
}

/// The paragraph that a first line begins, and its answer.
fn open_paragraph(words: &[&[u8]]) -> (Paragraph, String) {
    match family(words) {
        None => (Paragraph::PassedOver, "no such family".to_string()),
        Some(Err(fault)) => (Paragraph::PassedOver, tell::refusal(&fault)),
        Some(Ok(family)) => {
            let told = format!("count {} dimension {}", family.count(), family.dimension());
            (Paragraph::Of(family), told)
        }
    }
}

/// The family that a first line makes, if it is of the form.
fn family(words: &[&[u8]]) -> Option<Result<Family, Fault>> {
    match words {
        [b"first", l, b"first", m, b"words", h, q] => {
            let whole = Family::words(number(h), number(q));
            let part = whole.and_then(|whole| whole.first_part(number(m)));
            Some(part.and_then(|part| part.first_part(number(l))))
        }
        [b"first", m, whole @ ..] => {
            let whole = plain_family(whole)?;
            Some(whole.and_then(|whole| whole.first_part(number(m))))
        }
        _ => plain_family(words),
    }
}

/// The family that words make without a first part.
fn plain_family(words: &[&[u8]]) -> Option<Result<Family, Fault>> {
    match words {
        [b"unit", n] => Some(Family::unit(number(n))),
        [b"words", h, q] => Some(Family::words(number(h), number(q))),
        [b"book", book] => Some(Family::book(&row(book))),
        _ => None,
    }
}

/// Does a drill, and gives the session as it then is and the answer.
fn drill(family: &Family, turn: Turn, words: &[&[u8]]) -> (Turn, String) {
    match words {
        [b"host", host] => (turn, hosts::host_drill(host)),
        [b"answer", host, query, sheet] => {
            let answer = hosts::answer_drill(family, host, &row(query), row(sheet));
            (turn, answer)
        }
        [b"dense", table, positions @ ..] => (turn, hosts::dense_drill(row(table), positions)),
        [b"change", count, tasks @ ..] => (turn, hosts::change_drill(number(count), tasks)),
        [b"lookup", input] => (turn, lookup::print(&row(input)).replace('\n', "/")),
        _ => calls::drill(family, turn, words),
    }
}

#[cfg(test)]
mod tests;
