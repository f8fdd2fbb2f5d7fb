//! Digits: numbers from 0 to 5, added and multiplied modulo 6, and the product of two rows of them.

use crate::checks::{check_digits, check_length};
use crate::fault::Fault;

/// The sum of two digits.
pub fn add(a: u8, b: u8) -> u8 {
    ((u32::from(a) + u32::from(b)) % 6) as u8
}

/// The product of two digits.
pub fn multiply(a: u8, b: u8) -> u8 {
    ((u32::from(a) * u32::from(b)) % 6) as u8
}

/// How many coordinates a product goes along before it takes a remainder: 4,096 × 255 × 255 fits 32 bits.
const CHUNK: usize = 4_096;

/// The sum of the products of two rows' coordinates, modulo 6. Past a row's end its digits are 0.
pub fn dot(a: &[u8], b: &[u8]) -> u8 {
    let chunks = a.chunks(CHUNK).zip(b.chunks(CHUNK));
    chunks.fold(0, |sum, (a, b)| {
        let products = a.iter().zip(b).map(|(&x, &y)| u32::from(x) * u32::from(y));
        add(sum, (products.sum::<u32>() % 6) as u8)
    })
}

/// What a row holds at a place; past its end it is 0.
pub fn at_place(row: &[u8], place: u64) -> u8 {
    let place = usize::try_from(place);
    let byte = place.ok().and_then(|place| row.get(place));
    byte.copied().unwrap_or(0)
}

/// The product of two vectors of equal length, both of digits.
pub fn vector_product(a: &[u8], b: &[u8]) -> Result<u8, Fault> {
    check_length(b.len() as u64, a.len() as u64)?;
    check_digits(a)?;
    check_digits(b)?;
    Ok(dot(a, b))
}
