//! Tapes: rows of digits drawn from random bytes.

use crate::checks::check_length;
use crate::fault::Fault;

/// Draws a tape: each byte gives its remainder by 6. Rows of unequal length are refused, naming the bytes'.
pub fn draw(bytes: &[u8], tape: &mut [u8]) -> Result<(), Fault> {
    check_length(bytes.len() as u64, tape.len() as u64)?;
    for (digit, byte) in tape.iter_mut().zip(bytes) {
        *digit = byte % 6;
    }
    Ok(())
}
