//! Elements: polynomials in g with digits as coefficients, modulo g^6 - 1.

use crate::checks::{check_digits, check_length};
use crate::digits::{add, at_place, multiply};
use crate::fault::Fault;

/// The element whose digit r belongs to the power g^r.
#[derive(Clone, Copy, Debug, PartialEq, Eq)]
pub struct Element(pub [u8; 6]);

impl Element {
    /// The element 0.
    pub const ZERO: Element = Element([0; 6]);

    /// The element 1.
    pub const ONE: Element = Element([1, 0, 0, 0, 0, 0]);

    /// The element g.
    pub const G: Element = Element([0, 1, 0, 0, 0, 0]);

    /// The powers of g from 0 to 5, each of them g times the one before.
    pub fn powers() -> [Element; 6] {
        let mut powers = [Element::ONE; 6];
        for e in 1..6 {
            powers[e] = powers[e - 1].times(&Element::G);
        }
        powers
    }

    /// The element in a row of six digits.
    pub fn from_row(row: &[u8]) -> Result<Element, Fault> {
        check_length(row.len() as u64, 6)?;
        check_digits(row)?;
        Ok(Element(std::array::from_fn(|r| row[r])))
    }

    /// Six numbers of a row from a place on, each modulo 6, with 0 past the row's end.
    pub fn six(row: &[u8], place: u64) -> Element {
        Element(std::array::from_fn(|r| {
            let at = place.saturating_add(r as u64);
            at_place(row, at) % 6
        }))
    }

    /// Writes the digits to a row of six places.
    pub fn write(&self, row: &mut [u8]) -> Result<(), Fault> {
        check_length(row.len() as u64, 6)?;
        row.copy_from_slice(&self.0);
        Ok(())
    }

    /// The digit for the power g^s.
    pub fn digit(&self, s: u64) -> u8 {
        self.0[(s % 6) as usize]
    }

    /// The sum with another, digit by digit.
    pub fn plus(&self, other: &Element) -> Element {
        let mut sum = *self;
        sum.gain(other);
        sum
    }

    /// Adds another to this one, digit by digit. Each sum is below 12, so at most one 6 is to be taken off; where none is,
    /// taking it off wraps around to a larger number, so the smaller of the two is the digit.
    pub fn gain(&mut self, other: &Element) {
        for (digit, more) in self.0.iter_mut().zip(&other.0) {
            let sum = *digit + *more;
            *digit = sum.min(sum.wrapping_sub(6));
        }
    }

    /// The product with another.
    pub fn times(&self, other: &Element) -> Element {
        let mut product = Element::ZERO;
        for i in 0..6 {
            for j in 0..6 {
                let r = (i + j) % 6;
                product.0[r] = add(product.0[r], multiply(self.0[i], other.0[j]));
            }
        }
        product
    }

    /// Each digit times a number.
    pub fn scaled(&self, amount: u8) -> Element {
        Element(self.0.map(|digit| multiply(digit, amount)))
    }

    /// Divided by g^s: digit r is digit r + s of this one.
    pub fn turned(&self, s: u64) -> Element {
        Element(std::array::from_fn(|r| self.digit(r as u64 + s % 6)))
    }
}

#[cfg(test)]
mod tests {
    use super::*;

    /// The element a times g^s.
    fn power(a: u8, s: usize) -> Element {
        let mut element = Element::ZERO;
        element.0[s % 6] = a;
        element
    }

    #[test]
    fn three_times_two_is_nothing() {
        assert_eq!(power(3, 2).times(&power(2, 4)), Element::ZERO);
        assert_eq!(power(5, 2).times(&power(5, 5)), power(1, 1));
    }

    #[test]
    fn powers_go_round() {
        for (e, found) in Element::powers().into_iter().enumerate() {
            assert_eq!(found, power(1, e));
            assert_eq!(found.turned(e as u64), Element::ONE);
        }
        assert_eq!(Element::powers()[5].times(&Element::G), Element::ONE);
    }

    #[test]
    fn turning_divides() {
        let element = Element([5, 4, 3, 2, 1, 0]);
        for s in 0..13 {
            let turned = element.turned(s);
            assert_eq!(turned.times(&power(1, s as usize)), element);
        }
        assert_eq!(element.turned(u64::MAX), element.turned(3));
        assert_eq!(element.scaled(u8::MAX), element.scaled(3));
    }

    #[test]
    fn six_past_the_end() {
        assert_eq!(Element::six(&[7, 8, 9], 1), Element([2, 3, 0, 0, 0, 0]));
        assert_eq!(Element::six(&[7], u64::MAX), Element::ZERO);
    }
}
