//! How rows, elements and refusals are printed.

use crate::element::Element;
use crate::fault::Fault;

/// The longest row that the drills tell digit by digit.
const LONGEST: u64 = 60;

/// A row's numbers, each after a space.
pub fn row(row: &[u8]) -> String {
    row.iter().map(|number| format!(" {number}")).collect()
}

/// An element's digits, each after a space.
pub fn element(element: &Element) -> String {
    row(&element.0)
}

/// A row as the drills tell it: if it is long, by its length, the word `bytes`, and its bytes as digits in base 31,
/// modulo 2^32.
pub fn short_row(bytes: &[u8]) -> String {
    if bytes.len() as u64 <= LONGEST {
        return row(bytes);
    }
    let number = bytes.iter().fold(0, |number, &byte| next(number, byte));
    long_row(bytes.len() as u64, number)
}

/// A row that holds one byte at every place, as the drills tell it. It is told without being made, for its length may
/// be any number.
pub fn short_repeated(byte: u8, len: u64) -> String {
    if len <= LONGEST {
        return row(&vec![byte; len as usize]);
    }
    long_row(len, repeated(byte, len))
}

/// A long row, by its length and its number.
fn long_row(len: u64, number: u32) -> String {
    format!(" {len} bytes {number}")
}

/// The number of a row that holds one byte at every place. Each byte turns a number n into a n + b, and so do 2, 4, 8 and
/// more of them, with other a and b: as many are taken as the length tells in base 2.
fn repeated(byte: u8, mut len: u64) -> u32 {
    let (mut a, mut b) = (31u32, u32::from(byte));
    let mut number = 0u32;
    while len > 0 {
        if len % 2 == 1 {
            number = number.wrapping_mul(a).wrapping_add(b);
        }
        b = b.wrapping_mul(a).wrapping_add(b);
        a = a.wrapping_mul(a);
        len /= 2;
    }
    number
}

/// The number with one more digit in base 31, modulo 2^32.
fn next(number: u32, byte: u8) -> u32 {
    number.wrapping_mul(31).wrapping_add(u32::from(byte))
}

/// A refusal with its number, word, what it names, and its layer.
pub fn refusal(fault: &Fault) -> String {
    format!("refused {fault}")
}

#[cfg(test)]
mod tests {
    use super::*;

    #[test]
    fn long_rows() {
        let bytes: Vec<u8> = (0..60).collect();
        assert_eq!(short_row(&bytes), row(&bytes));
        assert_eq!(short_row(&[9; 61]), short_repeated(9, 61));
        let number = (0..61).fold(0u128, |n, _| (n * 31 + 9) % (1 << 32));
        assert_eq!(short_row(&[9; 61]), format!(" 61 bytes {number}"));
        assert_eq!(short_repeated(9, 2), " 9 9");
        for len in 0..200 {
            let number = (0..len).fold(0, |number, _| next(number, 9));
            assert_eq!(repeated(9, len), number);
        }
    }
}
