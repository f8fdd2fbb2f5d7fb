//! The hand-optimised answer: the engine's sparse algorithm, written for speed in safe Rust.
//!
//! Each entry that is not 0 is taken by itself, as the engine does: its own coordinates, the product of u with the query over them, and
//! a digit added at each. What is made fast is how: letters count up like an odometer, the compiler knows the number of letters and
//! makes a loop for each, coordinates are made once for both uses, a sum of two digits is brought below 6 by a subtraction, and
//! nothing is allocated.
#![forbid(unsafe_code)]

use crate::checks::{DIGIT, LENGTH, Refusal, SIZE, check, digits, family, status};
use crate::digits::{add, empty, split};
use crate::words::Words;

/// The most entries that a table has.
const MOST_ENTRIES: usize = 1 << 20;

/// Adds a host's answer to the sheet; gives 0, or the number of the refusal.
pub fn answer(h: u32, q: u32, table: &[u8], query: &[u8], sheet: &mut [u8]) -> u32 {
    status(answered(h, q, table, query, sheet))
}

fn answered(h: u32, q: u32, table: &[u8], query: &[u8], sheet: &mut [u8]) -> Result<(), Refusal> {
    let words = check_answer(h, q, table, query, sheet)?;
    match words.h {
        1 => add_entries::<1, 2>(words.q, table, query, sheet),
        2 => add_entries::<2, 4>(words.q, table, query, sheet),
        3 => add_entries::<3, 7>(words.q, table, query, sheet),
        4 => add_entries::<4, 11>(words.q, table, query, sheet),
        _ => add_entries::<5, 16>(words.q, table, query, sheet),
    }
    Ok(())
}

/// The family of an answer that is to be given, or the refusal.
pub fn check_answer(
    h: u32,
    q: u32,
    table: &[u8],
    query: &[u8],
    sheet: &[u8],
) -> Result<Words, Refusal> {
    let words = family(h, q)?;
    check((1..=MOST_ENTRIES).contains(&table.len()), SIZE)?;
    check(digits(table), DIGIT)?;
    check(table.len() == words.count(), SIZE)?;
    check(query.len() == words.dimension(), LENGTH)?;
    check(sheet.len() == words.sheet(), LENGTH)?;
    check(digits(query), DIGIT)?;
    check(digits(sheet), DIGIT)?;
    Ok(words)
}

/// Adds what each entry comes to. Along a row of the table only the last letter changes; a row of nothing but 0 is passed over.
fn add_entries<const H: usize, const ONES: usize>(
    q: usize,
    table: &[u8],
    query: &[u8],
    sheet: &mut [u8],
) {
    let (value, elements) = split(sheet, query.len());
    let mut word = [0; H];
    for row in table.chunks_exact(q) {
        if !empty(row) {
            let entries = row.iter().enumerate();
            for (letter, &entry) in entries.filter(|(_, entry)| **entry != 0) {
                word[H - 1] = letter;
                let own = coordinates::<H, ONES>(q, &word);
                let sum: u8 = own.iter().map(|c| query[*c]).sum();
                let exponent = usize::from(sum % 6);
                add(&mut value[exponent], entry);
                for c in own {
                    add(&mut elements[c][exponent], entry);
                }
            }
        }
        count_up(&mut word[..H - 1], q);
    }
}

/// The next letters, the last of them first, as an odometer counts.
#[inline]
pub fn count_up(letters: &mut [usize], q: usize) {
    for letter in letters.iter_mut().rev() {
        *letter += 1;
        if *letter < q {
            break;
        }
        *letter = 0;
    }
}

/// The coordinates of a word of H letters: there are ONES of them, 1 + H + H (H − 1) / 2.
#[inline]
fn coordinates<const H: usize, const ONES: usize>(q: usize, word: &[usize; H]) -> [usize; ONES] {
    let mut own = [0; ONES];
    let mut place = 1;
    let mut block = 1;
    for letter in word {
        own[place] = block + letter;
        place += 1;
        block += q;
    }
    for i in 0..H {
        for j in i + 1..H {
            own[place] = block + word[i] * q + word[j];
            place += 1;
            block += q * q;
        }
    }
    own
}

#[cfg(test)]
mod tests {
    use super::*;

    #[test]
    fn letters_count_up() {
        let mut letters = [0, 2, 1];
        for next in [[0, 2, 2], [1, 0, 0], [1, 0, 1]] {
            count_up(&mut letters, 3);
            assert_eq!(letters, next);
        }
    }
}
