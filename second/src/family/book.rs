//! Books: families read from bytes, checked field by field from front to back, then pair by pair.

use super::MOST_COORDINATES;
use crate::checks::check_limits;
use crate::digits::dot;
use crate::fault::{Cause, Fault, Layer};

/// The most positions that a book has.
const MOST_BOOK_POSITIONS: u64 = 1_024;

/// A family that was read from bytes and keeps the matching rule.
#[derive(Clone, Debug)]
pub struct Book {
    dimension: usize,
    count: u64,
    us: Vec<u8>,
    vs: Vec<u8>,
}

/// What was found in a book, as far as it was read, and what became of it.
#[derive(Clone, Debug)]
pub struct Examination {
    pub dimension: Option<u64>,
    pub positions: Option<u64>,
    pub pairs: Option<u64>,
    pub outcome: Result<Book, Fault>,
}

/// The bytes of a book, and the place up to which they are read.
struct Reader<'a> {
    bytes: &'a [u8],
    place: usize,
}

impl Book {
    /// How many positions there are.
    pub fn count(&self) -> u64 {
        self.count
    }

    /// How many coordinates a vector has.
    pub fn dimension(&self) -> usize {
        self.dimension
    }

    /// The vector u of a position.
    pub fn u(&self, position: u64) -> Vec<u8> {
        self.vector(&self.us, position).to_vec()
    }

    /// The vector v of a position.
    pub fn v(&self, position: u64) -> Vec<u8> {
        self.vector(&self.vs, position).to_vec()
    }

    /// The vector of a position among all of one sort.
    fn vector<'a>(&self, vectors: &'a [u8], position: u64) -> &'a [u8] {
        let start = position as usize * self.dimension;
        &vectors[start..start + self.dimension]
    }

    /// Whether u of one position and v of another keep the matching rule.
    fn matches(&self, i: u64, j: u64) -> bool {
        let product = dot(self.vector(&self.us, i), self.vector(&self.vs, j));
        if i == j {
            product == 0
        } else {
            matches!(product, 1 | 3 | 4)
        }
    }

    /// The first pair that breaks the matching rule, by i, then j.
    fn first_unmatched(&self) -> Option<(u64, u64)> {
        let n = self.count;
        let mut pairs = (0..n).flat_map(|i| (0..n).map(move |j| (i, j)));
        pairs.find(|&(i, j)| !self.matches(i, j))
    }
}

impl<'a> Reader<'a> {
    /// The next so many bytes, or a refusal that names the whole book's length.
    fn take(&mut self, len: usize) -> Result<&'a [u8], Fault> {
        let found = self.bytes[self.place..].get(..len);
        let found = found.ok_or(self.wrong_length())?;
        self.place += len;
        Ok(found)
    }

    /// The number in the next so many bytes, the most significant first.
    fn number(&mut self, len: usize) -> Result<u64, Fault> {
        let bytes = self.take(len)?;
        Ok(bytes.iter().fold(0, |n, &byte| n * 256 + u64::from(byte)))
    }

    /// The next so many digits, or a refusal that names the place in the book.
    fn digits(&mut self, len: usize) -> Result<Vec<u8>, Fault> {
        let start = self.place;
        let row = self.take(len)?;
        match row.iter().position(|&byte| byte > 5) {
            None => Ok(row.to_vec()),
            Some(at) => Err(Fault::new(
                Layer::Element,
                Cause::Digit((start + at) as u64),
            )),
        }
    }

    /// Refuses bytes that are left over.
    fn end(&self) -> Result<(), Fault> {
        if self.place == self.bytes.len() {
            return Ok(());
        }
        Err(self.wrong_length())
    }

    /// The refusal of the book's length.
    fn wrong_length(&self) -> Fault {
        Fault::new(Layer::Element, Cause::Length(self.bytes.len() as u64))
    }
}

/// Examines a book's bytes.
pub fn examine(bytes: &[u8]) -> Examination {
    let mut found = Examination {
        dimension: None,
        positions: None,
        pairs: None,
        outcome: Err(Fault::new(Layer::Element, Cause::Length(0))),
    };
    found.outcome = read(bytes, &mut found);
    found
}

/// Reads a book and tries its pairs, and notes what is found on the way.
fn read(bytes: &[u8], found: &mut Examination) -> Result<Book, Fault> {
    let book = read_layout(bytes, found)?;
    let n = book.count;
    match book.first_unmatched() {
        None => {
            found.pairs = Some(n * n);
            Ok(book)
        }
        Some((i, j)) => {
            found.pairs = Some(i * n + j + 1);
            Err(Fault::new(Layer::Family, Cause::Unmatched(i, j)))
        }
    }
}

/// Reads the fields of a book in their order.
fn read_layout(bytes: &[u8], found: &mut Examination) -> Result<Book, Fault> {
    let mut reader = Reader { bytes, place: 0 };
    let dimension = reader.number(2)?;
    check_limits(Layer::Family, 1, MOST_COORDINATES, dimension)?;
    found.dimension = Some(dimension);
    let count = reader.number(4)?;
    check_limits(Layer::Family, 1, MOST_BOOK_POSITIONS, count)?;
    found.positions = Some(count);
    let len = (count * dimension) as usize;
    let us = reader.digits(len)?;
    let again = reader.number(4)?;
    if again != count {
        return Err(Fault::new(Layer::Family, Cause::Counts(again)));
    }
    let vs = reader.digits(len)?;
    reader.end()?;
    let dimension = dimension as usize;
    Ok(Book {
        dimension,
        count,
        us,
        vs,
    })
}

#[cfg(test)]
mod tests {
    use super::*;

    /// The smallest book of words.
    const SMALLEST: [u8; 22] = [
        0, 3, 0, 0, 0, 2, 1, 1, 0, 1, 0, 1, 0, 0, 0, 2, 1, 5, 0, 1, 0, 5,
    ];

    /// The cause for which the smallest book is refused with one byte altered.
    fn altered(place: usize, byte: u8) -> Cause {
        let mut bytes = SMALLEST;
        bytes[place] = byte;
        examine(&bytes).outcome.unwrap_err().cause
    }

    #[test]
    fn the_smallest_book() {
        let found = examine(&SMALLEST);
        assert_eq!((found.dimension, found.positions), (Some(3), Some(2)));
        assert_eq!(found.pairs, Some(4));
        assert_eq!(found.outcome.unwrap().v(1), vec![1, 0, 5]);
    }

    #[test]
    fn each_field_refuses() {
        assert_eq!(altered(1, 0), Cause::Size(0));
        assert_eq!(altered(0, 16), Cause::Size(4_099));
        assert_eq!(altered(5, 0), Cause::Size(0));
        assert_eq!(altered(4, 4), Cause::Size(1_026));
        assert_eq!(altered(9, 6), Cause::Digit(9));
        assert_eq!(altered(15, 3), Cause::Counts(3));
        assert_eq!(altered(16, 255), Cause::Digit(16));
        assert_eq!(altered(16, 2), Cause::Unmatched(0, 0));
        assert_eq!(altered(1, 4), Cause::Counts(0x0002_0105));
    }

    #[test]
    fn every_other_length_is_refused() {
        for len in 0..SMALLEST.len() {
            let fault = examine(&SMALLEST[..len]).outcome.unwrap_err();
            assert_eq!(fault, Fault::new(Layer::Element, Cause::Length(len as u64)));
        }
        let longer = [&SMALLEST[..], &[0]].concat();
        assert_eq!(
            examine(&longer).outcome.unwrap_err().cause,
            Cause::Length(23)
        );
    }

    #[test]
    fn both_orders_of_a_pair_are_tried() {
        let book = [0, 2, 0, 0, 0, 2, 1, 0, 0, 1, 0, 0, 0, 2, 0, 2, 1, 0];
        let found = examine(&book);
        assert_eq!(found.pairs, Some(3));
        let fault = Fault::new(Layer::Family, Cause::Unmatched(1, 0));
        assert_eq!(found.outcome.unwrap_err(), fault);
    }
}
