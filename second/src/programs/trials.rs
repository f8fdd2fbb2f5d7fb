//! The test bench `trials`: each line asks for one case of elements, rows, books or families.

use super::bench::{byte, lines, number, row, words};
use super::tell;
use crate::digits::vector_product;
use crate::element::Element;
use crate::family::{examine, Family};
use crate::fault::Fault;
use crate::recovery::{read_entry, weigh, work};
use crate::tape::draw;

/// What it prints for its input.
pub fn print(input: &[u8]) -> String {
    let answers = lines(input)
        .into_iter()
        .map(|line| answer(&words(line)) + "\n");
    answers.collect()
}

/// The answer to a line.
fn answer(words: &[&[u8]]) -> String {
    match element_trial(words).or_else(|| family_trial(words)) {
        None => "no such trial".to_string(),
        Some(Ok(told)) => told,
        Some(Err(fault)) => tell::refusal(&fault),
    }
}

/// The answer to a line that asks for elements, rows or a book; none to any other.
fn element_trial(words: &[&[u8]]) -> Option<Result<String, Fault>> {
    Some(match words {
        [b"element", e, s, a] => element(&row(e), number(s), byte(a)),
        [b"elements", e, f] => elements(&row(e), &row(f)),
        [b"write", e, to] => Element::from_row(&row(e)).map(|e| write(&e, row(to))),
        [b"six", from, place] => Ok(six(&row(from), number(place))),
        [b"modulo", from] => Ok(modulo(&row(from))),
        [b"weighed", rows @ ..] => weighed(rows),
        [b"entry", x] => Element::from_row(&row(x)).map(|x| entry(read_entry(&x))),
        [b"recover", h, q, t, s, one, two] => {
            let family = Family::words(number(h), number(q));
            family.map(|family| recover(&family, number(t), byte(s), &row(one), &row(two)))
        }
        [b"vectors", a, b] => vector_product(&row(a), &row(b)).map(|p| format!("product {p}")),
        [b"draw", bytes, tape] => Ok(drawn(&row(bytes), row(tape))),
        [b"examine", book] => Ok(examined(&row(book))),
        _ => return None,
    })
}

/// The answer to a line that asks for a family; none to any other.
fn family_trial(words: &[&[u8]]) -> Option<Result<String, Fault>> {
    let (family, rest) = match words {
        [b"unit", n, rest @ ..] => (Family::unit(number(n)), rest),
        [b"words", h, q, rest @ ..] => (Family::words(number(h), number(q)), rest),
        [b"first", m, h, q, rest @ ..] => {
            let whole = Family::words(number(h), number(q));
            (whole.and_then(|whole| whole.first_part(number(m))), rest)
        }
        [b"part", m, n, rest @ ..] => (part(number(m), number(n)), rest),
        [b"book", book, rest @ ..] => (Family::book(&row(book)), rest),
        _ => return None,
    };
    Some(family.map(|family| of_family(&family, rest)))
}

/// The first m positions of the first n + 1 of the unit family of n + 2.
fn part(m: u64, n: u64) -> Result<Family, Fault> {
    let whole = Family::unit(n.saturating_add(2))?;
    whole.first_part(n.saturating_add(1))?.first_part(m)
}

/// What the words after a family ask of it.
fn of_family(family: &Family, rest: &[&[u8]]) -> String {
    match rest {
        [] => format!("count {} dimension {}", family.count(), family.dimension()),
        [position] => vectors(family, number(position)),
        [position, amount, exponent, to] => {
            let position = number(position);
            let mut to = row(to);
            let product = family.product(position, &to);
            family.spread(position, byte(amount), number(exponent), &mut to);
            format!("product {product} spread{}", tell::row(&to))
        }
        _ => "no such trial of a family".to_string(),
    }
}

/// Both vectors of a position, with one digit past the end.
fn vectors(family: &Family, position: u64) -> String {
    let [mut u, mut v] = [family.u(position), family.v(position)];
    u.push(0);
    v.push(0);
    format!("u{} v{}", tell::row(&u), tell::row(&v))
}

/// An element, turned, scaled, and one of its digits.
fn element(row: &[u8], s: u64, a: u8) -> Result<String, Fault> {
    let e = Element::from_row(row)?;
    let [read, turned, scaled] = [e, e.turned(s), e.scaled(a)].map(|e| tell::element(&e));
    let digit = e.digit(s);
    Ok(format!(
        "read{read} turned{turned} scaled{scaled} digit {digit}"
    ))
}

/// The sum and the product of two elements, and whether they are the same.
fn elements(one: &[u8], two: &[u8]) -> Result<String, Fault> {
    let e = Element::from_row(one)?;
    let f = Element::from_row(two)?;
    let [sum, product] = [e.plus(&f), e.times(&f)].map(|e| tell::element(&e));
    Ok(format!("sum{sum} product{product} same {}", e == f))
}

/// A row after an element is written to it, refused or not.
fn write(e: &Element, mut to: Vec<u8>) -> String {
    let outcome = e.write(&mut to);
    with_row(outcome, "row", &to)
}

/// A row after a tape is drawn into it, refused or not.
fn drawn(bytes: &[u8], mut tape: Vec<u8>) -> String {
    let outcome = draw(bytes, &mut tape);
    with_row(outcome, "tape", &tape)
}

/// A row with its name, after the refusal if there is one.
fn with_row(outcome: Result<(), Fault>, name: &str, row: &[u8]) -> String {
    let row = tell::row(row);
    match outcome {
        Ok(()) => format!("{name}{row}"),
        Err(fault) => format!("{} {name}{row}", tell::refusal(&fault)),
    }
}

/// The element of six numbers of a row from a place on.
fn six(from: &[u8], place: u64) -> String {
    format!("six{}", tell::element(&Element::six(from, place)))
}

/// The element of a row's first six numbers.
fn modulo(from: &[u8]) -> String {
    if from.len() < 6 {
        return "no six numbers".to_string();
    }
    format!("modulo{}", tell::element(&Element::six(from, 0)))
}

/// W of four elements. Another number of rows is answered before any of them is read.
fn weighed(rows: &[&[u8]]) -> Result<String, Fault> {
    let [y1, y2, y3, y4] = rows else {
        return Ok("no four elements".to_string());
    };
    let read = |word: &[u8]| Element::from_row(&row(word));
    let y = [read(y1)?, read(y2)?, read(y3)?, read(y4)?];
    Ok(format!("weighed{}", tell::element(&weigh(&y))))
}

/// An entry, or that there is none.
fn entry(entry: Option<u8>) -> String {
    match entry {
        Some(entry) => format!("entry {entry}"),
        None => "at odds".to_string(),
    }
}

/// The working of a recovery from two rows.
fn recover(family: &Family, t: u64, s: u8, one: &[u8], two: &[u8]) -> String {
    let working = work(family, t, s, one, two);
    let ys = working
        .y
        .map(|y| format!("y{} ", tell::element(&y)))
        .concat();
    let [w, x] = [working.w, working.x].map(|e| tell::element(&e));
    format!("{ys}w{w} x{x} {}", entry(working.entry))
}

/// What is found in a book.
fn examined(bytes: &[u8]) -> String {
    let found = examine(bytes);
    let [dimension, positions, pairs] = [found.dimension, found.positions, found.pairs]
        .map(|number| number.map_or("-".to_string(), |number| number.to_string()));
    let outcome = match found.outcome {
        Ok(_) => "accepted".to_string(),
        Err(fault) => tell::refusal(&fault),
    };
    format!("dimension {dimension} positions {positions} pairs {pairs} {outcome}")
}

#[cfg(test)]
mod tests {
    use super::*;
    use crate::programs::bench::examples;

    /// Asserts the answer to each line.
    fn assert_answers(cases: &[(&str, &str)]) {
        for (line, answer) in cases {
            let printed = print(format!("{line}\n").as_bytes());
            assert_eq!(printed, format!("{answer}\n"), "{line}");
        }
    }

    /// The examples of the page.
    const EXAMPLES: &str = "\
element 000303020502 12 176            read 0 3 3 2 5 2 turned 0 3 3 2 5 2 scaled 0 0 0 4 4 4 digit 0
elements 000303020502 020205010105     sum 2 5 2 3 0 1 product 1 2 5 4 0 0 same false
write 020002030201 a53b851b0a8b        row 2 0 2 3 2 1
write 040003010002 -                   refused 1 length 0 element row
draw 6684b0 913d                       refused 1 length 3 element tape 145 61
examine 000100000001010000000100       dimension 1 positions 1 pairs 1 accepted
examine 00                             dimension - positions - pairs - refused 1 length 1 element
words 1 2 1                            u 1 0 1 0 v 1 0 5 0
words 1 2 1 3 1 000000000000000000     product 0 spread 0 3 0 0 0 0 0 0 0
entry 000402000000                     at odds";

    #[test]
    fn of_the_page() {
        let examples = examples(EXAMPLES);
        assert_eq!(examples.len(), 10);
        assert_answers(&examples);
    }

    #[test]
    fn of_elements() {
        assert_answers(&[
            (
                "element 000102030405 1 2",
                "read 0 1 2 3 4 5 turned 1 2 3 4 5 0 scaled 0 2 4 0 2 4 digit 1",
            ),
            ("element 0001020304 1 2", "refused 1 length 5 element"),
            ("element 000102060709 1 2", "refused 2 digit 3 element"),
            (
                "elements 000003000000 000000000200",
                "sum 0 0 3 0 2 0 product 0 0 0 0 0 0 same false",
            ),
            ("elements 0001 06", "refused 1 length 2 element"),
            (
                "elements 000102030405 060606060606",
                "refused 2 digit 0 element",
            ),
            ("write 000102030405 090909090909", "row 0 1 2 3 4 5"),
            (
                "write 000102030405 0909",
                "refused 1 length 2 element row 9 9",
            ),
            ("write 0001 0909", "refused 1 length 2 element"),
            ("write 000102030406 0909", "refused 2 digit 5 element"),
            ("six 0708 1", "six 2 0 0 0 0 0"),
            ("modulo 0708090a0b0c0d", "modulo 1 2 3 4 5 0"),
            ("modulo 0708090a0b", "no six numbers"),
            ("entry 000400030203", "entry 5"),
            ("entry 000100000203", "at odds"),
            ("entry 0001", "refused 1 length 2 element"),
        ]);
    }

    #[test]
    fn of_words_and_numbers() {
        assert_answers(&[
            (
                "element 000102030405 18446744073709551615 256",
                "read 0 1 2 3 4 5 turned 3 4 5 0 1 2 scaled 0 3 0 3 0 3 digit 3",
            ),
            (
                "element 0A0102030405 +4 +2",
                "read 0 1 2 3 4 5 turned 4 5 0 1 2 3 scaled 0 2 4 0 2 4 digit 4",
            ),
            ("six 0708 x", "six 0 0 0 0 0 0"),
            ("six 0708  1", "no such trial"),
            ("six 0708 ", "six 0 0 0 0 0 0"),
            ("six  0", "six 0 0 0 0 0 0"),
            ("unit x", "refused 3 size 18446744073709551615 family"),
            ("unit 4294967297", "refused 3 size 4294967297 family"),
            ("unit  3", "refused 3 size 18446744073709551615 family"),
            ("unit 3 ", "u 0 0 0 0 v 0 0 0 0"),
            ("unit 3 4294967297", "u 0 0 0 0 v 0 0 0 0"),
            (
                "unit 1 0 256 6 000000000000",
                "product 0 spread 3 0 0 0 0 0",
            ),
            (" unit 3", "no such trial"),
            ("", "no such trial"),
        ]);
    }

    #[test]
    fn of_weights() {
        let one = "010000000000";
        let none = "000000000000";
        assert_answers(&[
            (
                &format!("weighed {one} {none} {one} {none}"),
                "weighed 0 2 0 3 4 3",
            ),
            (&format!("weighed {one} {none} {one}"), "no four elements"),
            (
                &format!("weighed {one} {none} {one} 00"),
                "refused 1 length 1 element",
            ),
            (
                &format!("weighed {one} 000600000000 00 {one}"),
                "refused 2 digit 1 element",
            ),
            (
                &format!("weighed 00 {one} {one} {one} {one}"),
                "no four elements",
            ),
            ("weighed", "no four elements"),
        ]);
    }

    #[test]
    fn of_recovery() {
        let one = "000500000200000500000200000000000200000500000000";
        let two = "000500000002000500000002000000000002000500000000";
        let told = "y 0 5 0 0 2 0 y 0 0 0 0 2 0 y 0 5 0 0 0 2 y 0 0 0 0 0 2 \
                    w 3 0 4 0 3 2 x 0 4 0 3 2 3 entry 5";
        let short = "y 1 0 0 0 0 0 y 0 0 0 0 0 0 y 0 0 0 0 0 0 y 0 0 0 0 0 0 \
                     w 0 1 0 0 2 3 x 0 1 0 0 2 3 at odds";
        let large = "y 1 0 0 0 0 0 y 0 0 0 0 0 0 y 0 0 0 0 0 0 y 0 0 0 0 0 0 \
                     w 0 1 0 0 2 3 x 0 2 3 0 1 0 at odds";
        assert_answers(&[
            (&format!("recover 1 2 1 1 {one} {two}"), told),
            (&format!("recover 1 2 1 7 {one} {two}"), told),
            ("recover 1 2 1 256 07 -", large),
            ("recover 1 2 1 255 07 -", large),
            ("recover 1 2 99 0 07 -", short),
            ("recover 1 2 18446744073709551615 0 07 -", short),
            ("recover 1 1 1 1 - -", "refused 3 size 1 family"),
        ]);
    }

    #[test]
    fn of_rows() {
        assert_answers(&[
            ("vectors 030104 010005", "product 5"),
            ("vectors - -", "product 0"),
            ("vectors 0301 010005", "refused 1 length 3 element"),
            ("vectors 0306 0900", "refused 2 digit 1 element"),
            ("vectors 0300 0900", "refused 2 digit 0 element"),
            ("draw 06ff 0909", "tape 0 3"),
            ("draw 06 0909", "refused 1 length 1 element tape 9 9"),
            (
                "examine 00030000000201010001000100000002010500010005",
                "dimension 3 positions 2 pairs 4 accepted",
            ),
            (
                "examine -",
                "dimension - positions - pairs - refused 1 length 0 element",
            ),
            (
                "examine 00020000000201000001000000020001 0",
                "no such trial",
            ),
            (
                "examine 000200000002010000010000000200010000",
                "dimension 2 positions 2 pairs 2 refused 5 unmatched 0 1 family",
            ),
        ]);
    }

    #[test]
    fn of_families() {
        assert_answers(&[
            ("unit 3", "count 3 dimension 3"),
            ("unit 3 1", "u 0 1 0 0 v 1 0 1 0"),
            ("unit 3 3", "u 0 0 0 0 v 0 0 0 0"),
            ("unit 0 1", "refused 3 size 0 family"),
            ("words 5 16", "count 1048576 dimension 2641"),
            ("words 1 2 1", "u 1 0 1 0 v 1 0 5 0"),
            (
                "words 1 2 1 5 8 030104090909090909090909",
                "product 1 spread 3 1 3 9 9 9 9 9 9 9 9 9",
            ),
            ("words 1 2 1 5", "no such trial of a family"),
            ("words 1 2 1 5 8 03 04", "no such trial of a family"),
            ("first 3 2 3", "count 3 dimension 16"),
            ("first 10 2 3", "refused 3 size 10 family"),
            ("part 2 3", "count 2 dimension 5"),
            ("part 5 3", "refused 3 size 5 family"),
            ("part 1 4095", "refused 3 size 4097 family"),
            (
                "book 00030000000201010001000100000002010500010005 0",
                "u 1 1 0 0 v 1 5 0 0",
            ),
            ("book -", "refused 1 length 0 element"),
            ("book", "no such trial"),
            ("units 3", "no such trial"),
        ]);
    }
}
