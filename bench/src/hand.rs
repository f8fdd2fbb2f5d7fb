//! The hand-optimised request and recovery: only the own coordinates of v(t) are touched, and the rest is copied and checked.
#![forbid(unsafe_code)]

use crate::checks::{
    AT_ODDS, DIGIT, LENGTH, POSITION, Refusal, SPENT, check, digits, family, status,
};
use crate::digits::{Element, add};
use crate::words::Words;

/// The weights of recovery.
const C1: Element = [0, 1, 0, 0, 2, 3];
const C2: Element = [0, 5, 0, 0, 4, 3];
const C3: Element = [0, 1, 0, 3, 2, 0];
const C4: Element = [0, 5, 0, 3, 4, 0];
const D: Element = [0, 2, 0, 3, 4, 3];

/// Makes the two queries of a lookup; gives 0, or the number of the refusal.
pub fn request(
    h: u32,
    q: u32,
    position: u32,
    tape: &[u8],
    first: &mut [u8],
    second: &mut [u8],
    shift: &mut [u8],
) -> u32 {
    let mut made = || -> Result<(), Refusal> {
        let words = family(h, q)?;
        let k = words.dimension();
        check(first.len() == k, LENGTH)?;
        check(second.len() == k, LENGTH)?;
        check(shift.len() == 1, LENGTH)?;
        check((position as usize) < words.count(), POSITION)?;
        check(tape.len() >= k, SPENT)?;
        check(digits(tape), DIGIT)?;
        first.copy_from_slice(&tape[..k]);
        second.copy_from_slice(first);
        let mut sum = 0;
        for (coordinate, weight) in words.own(position as usize) {
            sum += first[coordinate];
            add(&mut second[coordinate], weight);
        }
        shift[0] = sum % 6;
        Ok(())
    };
    status(made())
}

/// Reads the entry from two sheets; gives 0, or the number of the refusal.
pub fn recover(
    h: u32,
    q: u32,
    position: u32,
    shift: &[u8],
    first: &[u8],
    second: &[u8],
    entry: &mut [u8],
) -> u32 {
    let mut read_out = || -> Result<(), Refusal> {
        let words = family(h, q)?;
        check(shift.len() == 1, LENGTH)?;
        check(first.len() == words.sheet(), LENGTH)?;
        check(second.len() == words.sheet(), LENGTH)?;
        check(entry.len() == 1, LENGTH)?;
        check((position as usize) < words.count(), POSITION)?;
        check(digits(shift), DIGIT)?;
        check(digits(first), DIGIT)?;
        check(digits(second), DIGIT)?;
        let (y1, y2) = value_and_slope(words, position as usize, first);
        let (y3, y4) = value_and_slope(words, position as usize, second);
        let w = weighed([(C1, y1), (C2, y2), (C3, y3), (C4, y4)]);
        entry[0] = read(w, usize::from(shift[0]))?;
        Ok(())
    };
    status(read_out())
}

/// A sheet's value, and the sum of the digits of v times the sheet's elements.
fn value_and_slope(words: Words, position: usize, sheet: &[u8]) -> (Element, Element) {
    let (elements, _) = sheet.as_chunks();
    let mut slope = [0; 6];
    for (coordinate, weight) in words.own(position) {
        let element: &Element = &elements[1 + coordinate];
        for (sum, digit) in slope.iter_mut().zip(element) {
            *sum += u32::from(weight * digit);
        }
    }
    (elements[0], slope.map(|sum| (sum % 6) as u8))
}

/// The sum of products of elements.
fn weighed(products: [(Element, Element); 4]) -> Element {
    let mut sums = [0u32; 6];
    for (weight, y) in products {
        for (i, a) in weight.into_iter().enumerate() {
            for (j, b) in y.into_iter().enumerate() {
                sums[(i + j) % 6] += u32::from(a * b);
            }
        }
    }
    sums.map(|sum| (sum % 6) as u8)
}

/// The entry that W holds for a shift.
fn read(w: Element, shift: usize) -> Result<u8, Refusal> {
    let x: Element = std::array::from_fn(|r| w[(r + shift) % 6]);
    let entry = (6 + x[3] - x[1]) % 6;
    let whole = x == D.map(|digit| entry * digit % 6);
    if whole { Ok(entry) } else { Err(AT_ODDS) }
}

#[cfg(test)]
mod tests {
    use super::*;
    use crate::hand_answer::answer;

    #[test]
    fn a_worked_lookup() {
        let (mut first, mut second, mut shift, mut entry) = ([9; 3], [9; 3], [9], [9]);
        assert_eq!(
            request(1, 2, 1, &[3, 1, 4], &mut first, &mut second, &mut shift),
            0
        );
        assert_eq!((first, second, shift), ([3, 1, 4], [4, 1, 3], [1]));
        let (mut one, mut two) = ([0; 24], [0; 24]);
        assert_eq!(answer(1, 2, &[2, 5], &first, &mut one), 0);
        assert_eq!(answer(1, 2, &[2, 5], &second, &mut two), 0);
        assert_eq!(one[..12], [0, 5, 0, 0, 2, 0, 0, 5, 0, 0, 2, 0]);
        assert_eq!(one[12..], [0, 0, 0, 0, 2, 0, 0, 5, 0, 0, 0, 0]);
        assert_eq!(recover(1, 2, 1, &shift, &one, &two, &mut entry), 0);
        assert_eq!(entry, [5]);
    }

    #[test]
    fn sheets_at_odds_are_refused() {
        let mut entry = [9];
        let mut one = [0; 24];
        one[0] = 1;
        assert_eq!(recover(1, 2, 1, &[0], &one, &[0; 24], &mut entry), AT_ODDS);
        assert_eq!(entry, [9]);
    }
}
