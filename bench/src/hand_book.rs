//! The hand-optimised book check: every pair is tried along all coordinates, and what `checkbook` prints is written.
#![forbid(unsafe_code)]

use std::fmt::Write;

/// So many products of two digits have a sum that fits 16 bits: 2,048 × 5 × 5 is 51,200.
const CHUNK: usize = 2_048;

/// Reads a book's parts front to back.
struct Reader<'a> {
    whole: &'a [u8],
    at: usize,
}

impl<'a> Reader<'a> {
    /// The next bytes; the refusal has the book's length.
    fn take(&mut self, len: usize) -> Result<&'a [u8], String> {
        let part = self.whole[self.at..]
            .get(..len)
            .ok_or_else(|| self.wrong_length())?;
        self.at += len;
        Ok(part)
    }

    fn wrong_length(&self) -> String {
        format!("1 length {}", self.whole.len())
    }

    /// The next number, the most significant byte first.
    fn number(&mut self, len: usize) -> Result<usize, String> {
        Ok(self
            .take(len)?
            .iter()
            .fold(0, |n, byte| n * 256 + usize::from(*byte)))
    }

    /// The next number, which has limits.
    fn limited(&mut self, len: usize, most: usize) -> Result<usize, String> {
        let number = self.number(len)?;
        let within = (1..=most).contains(&number);
        if within {
            Ok(number)
        } else {
            Err(format!("3 size {number}"))
        }
    }

    /// The next digits; the refusal has the first one's place that is none.
    fn digits(&mut self, len: usize) -> Result<&'a [u8], String> {
        let start = self.at;
        let part = self.take(len)?;
        match part.iter().position(|digit| *digit > 5) {
            None => Ok(part),
            Some(place) => Err(format!("2 digit {}", start + place)),
        }
    }
}

/// What `checkbook` prints for a book.
pub fn checkbook(book: &[u8]) -> Vec<u8> {
    let mut text = String::new();
    match examine(book, &mut text) {
        Ok(()) => text.push_str("accepted\n"),
        Err(refusal) => line(&mut text, "refused", refusal),
    }
    text.into_bytes()
}

fn line(text: &mut String, word: &str, found: impl std::fmt::Display) {
    writeln!(text, "{word} {found}").expect("a string takes any text");
}

/// Examines a book, and tells what it finds on the way.
fn examine(book: &[u8], text: &mut String) -> Result<(), String> {
    let mut reader = Reader { whole: book, at: 0 };
    let dimension = reader.limited(2, 4_096)?;
    line(text, "dimension", dimension);
    let count = reader.limited(4, 1_024)?;
    line(text, "positions", count);
    let us = reader.digits(count * dimension)?;
    let second = reader.number(4)?;
    if second != count {
        return Err(format!("4 counts {second}"));
    }
    let vs = reader.digits(count * dimension)?;
    if reader.at != book.len() {
        return Err(reader.wrong_length());
    }
    let bad = bad_pair(us, vs, dimension);
    line(
        text,
        "pairs",
        bad.map_or(count * count, |(i, j)| i * count + j + 1),
    );
    match bad {
        None => Ok(()),
        Some((i, j)) => Err(format!("5 unmatched {i} {j}")),
    }
}

/// The first pair that breaks the matching rule.
fn bad_pair(us: &[u8], vs: &[u8], dimension: usize) -> Option<(usize, usize)> {
    us.chunks_exact(dimension).enumerate().find_map(|(i, u)| {
        let mut partners = vs.chunks_exact(dimension).enumerate();
        partners
            .find(|(j, v)| !allowed(i == *j, product(u, v)))
            .map(|(j, _)| (i, j))
    })
}

/// Whether a product is allowed, of equal positions or of others.
fn allowed(equal: bool, product: u32) -> bool {
    if equal {
        product == 0
    } else {
        matches!(product, 1 | 3 | 4)
    }
}

/// The product of two vectors. Sums of 16 bits let the machine go along many coordinates at a time.
fn product(u: &[u8], v: &[u8]) -> u32 {
    let chunks = u.chunks(CHUNK).zip(v.chunks(CHUNK));
    chunks
        .map(|(a, b)| u32::from(chunk_product(a, b)))
        .sum::<u32>()
        % 6
}

fn chunk_product(a: &[u8], b: &[u8]) -> u16 {
    a.iter()
        .zip(b)
        .map(|(x, y)| u16::from(*x) * u16::from(*y))
        .sum()
}

#[cfg(test)]
mod tests {
    use super::*;

    const SMALLEST: &[u8] = b"\0\x03\0\0\0\x02\x01\x01\0\x01\0\x01\0\0\0\x02\x01\x05\0\x01\0\x05";

    #[test]
    fn the_smallest_book_is_accepted() {
        assert_eq!(
            checkbook(SMALLEST),
            b"dimension 3\npositions 2\npairs 4\naccepted\n"
        );
    }

    #[test]
    fn the_first_pair_that_breaks_the_rule_is_told() {
        let mut book = SMALLEST.to_vec();
        book[19] = 2;
        assert_eq!(
            checkbook(&book),
            b"dimension 3\npositions 2\npairs 2\nrefused 5 unmatched 0 1\n"
        );
    }

    #[test]
    fn a_book_that_ends_early_is_refused() {
        assert_eq!(
            checkbook(&SMALLEST[..21]),
            b"dimension 3\npositions 2\nrefused 1 length 21\n"
        );
    }
}
