//! The checks of input that the hand-optimised calls share: each refuses by its number alone.

use crate::words::Words;

/// The number of a refusal.
pub type Refusal = u32;

pub const LENGTH: Refusal = 1;
pub const DIGIT: Refusal = 2;
pub const SIZE: Refusal = 3;
pub const POSITION: Refusal = 6;
pub const SPENT: Refusal = 7;
pub const AT_ODDS: Refusal = 8;

/// Refuses with the number unless the condition holds.
pub fn check(holds: bool, refusal: Refusal) -> Result<(), Refusal> {
    if holds { Ok(()) } else { Err(refusal) }
}

/// Whether every byte of the row is a digit. It looks at all of them, without a branch, so that it goes many at a time.
pub fn digits(row: &[u8]) -> bool {
    row.iter().fold(0, |most, digit| most.max(*digit)) <= 5
}

/// The family, or the refusal of its numbers.
pub fn family(h: u32, q: u32) -> Result<Words, Refusal> {
    Words::new(h, q).ok_or(SIZE)
}

/// What a call gives: 0, or the number of the refusal.
pub fn status(result: Result<(), Refusal>) -> u32 {
    result.err().unwrap_or(0)
}
