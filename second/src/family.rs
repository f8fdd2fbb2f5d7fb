//! Families: for each position two vectors of digits, u and v, that keep the matching rule.

mod book;
mod first_part;
mod unit;
mod words;

pub use book::{examine, Book};
pub use first_part::FirstPart;
pub use unit::Unit;
pub use words::Words;

use crate::digits::dot;
use crate::fault::Fault;

/// The most positions that any family or host has.
pub const MOST_POSITIONS: u64 = 1_048_576;

/// The most coordinates that any family has.
pub const MOST_COORDINATES: u64 = 4_096;

/// A family of one of the four kinds.
#[derive(Clone, Debug)]
pub enum Family {
    Unit(Unit),
    Words(Words),
    Book(Book),
    FirstPart(FirstPart),
}

impl Family {
    /// The unit family of so many positions.
    pub fn unit(count: u64) -> Result<Family, Fault> {
        Unit::new(count).map(Family::Unit)
    }

    /// The words of h letters from an alphabet of q.
    pub fn words(h: u64, q: u64) -> Result<Family, Fault> {
        Words::new(h, q).map(Family::Words)
    }

    /// The family in a book's bytes.
    pub fn book(bytes: &[u8]) -> Result<Family, Fault> {
        examine(bytes).outcome.map(Family::Book)
    }

    /// The first positions of this family.
    pub fn first_part(self, count: u64) -> Result<Family, Fault> {
        FirstPart::new(self, count).map(Family::FirstPart)
    }

    /// How many positions there are.
    pub fn count(&self) -> u64 {
        match self {
            Family::Unit(unit) => unit.count(),
            Family::Words(words) => words.count(),
            Family::Book(book) => book.count(),
            Family::FirstPart(part) => part.count(),
        }
    }

    /// How many coordinates a vector has.
    pub fn dimension(&self) -> usize {
        match self {
            Family::Unit(unit) => unit.dimension(),
            Family::Words(words) => words.dimension(),
            Family::Book(book) => book.dimension(),
            Family::FirstPart(part) => part.dimension(),
        }
    }

    /// The length of a sheet: the value, then an element for each coordinate.
    pub fn sheet_length(&self) -> usize {
        6 * (1 + self.dimension())
    }

    /// The vector u of a position; zeros beyond the last.
    pub fn u(&self, position: u64) -> Vec<u8> {
        if position >= self.count() {
            return vec![0; self.dimension()];
        }
        match self {
            Family::Unit(unit) => unit.u(position),
            Family::Words(words) => words.u(position),
            Family::Book(book) => book.u(position),
            Family::FirstPart(part) => part.u(position),
        }
    }

    /// The vector v of a position; zeros beyond the last.
    pub fn v(&self, position: u64) -> Vec<u8> {
        if position >= self.count() {
            return vec![0; self.dimension()];
        }
        match self {
            Family::Unit(unit) => unit.v(position),
            Family::Words(words) => words.v(position),
            Family::Book(book) => book.v(position),
            Family::FirstPart(part) => part.v(position),
        }
    }

    /// The product of a position's u with a row.
    pub fn product(&self, position: u64, row: &[u8]) -> u8 {
        dot(&self.u(position), row)
    }

    /// Adds amount × u(position)c × g^exponent to the element of each coordinate c in a row.
    pub fn spread(&self, position: u64, amount: u8, exponent: u64, row: &mut [u8]) {
        spread(&self.u(position), amount, exponent, row);
    }
}

/// Adds amount × u(c) × g^exponent to the element of each coordinate c in a row, where the elements stand one after the
/// other. Where u(c) is 0 nothing changes, and places past the row's end are passed over.
pub fn spread(u: &[u8], amount: u8, exponent: u64, row: &mut [u8]) {
    let power = (exponent % 6) as usize;
    for (&digit, element) in u.iter().zip(row.chunks_mut(6)) {
        if digit == 0 || power >= element.len() {
            continue;
        }
        let sum = u64::from(element[power]) + u64::from(amount) * u64::from(digit);
        element[power] = (sum % 6) as u8;
    }
}

#[cfg(test)]
mod tests {
    use super::*;

    #[test]
    fn spreading_touches_its_places_alone() {
        let mut row = [9, 9, 9, 9, 9, 9, 9, 254, 9];
        spread(&[0, 5, 1], u8::MAX, 7, &mut row);
        // 254 + 255 × 5 leaves 5.
        assert_eq!(row, [9, 9, 9, 9, 9, 9, 9, 5, 9]);
    }

    #[test]
    fn beyond_the_last_position_all_is_zero() {
        let family = Family::words(2, 3).unwrap().first_part(4).unwrap();
        assert_eq!(family.u(4), vec![0; 16]);
        assert_eq!(family.v(u64::MAX), vec![0; 16]);
        assert_eq!(family.u(3), Family::words(2, 3).unwrap().u(3));
    }
}
