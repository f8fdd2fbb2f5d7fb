//! Another way to answer, for comparison: words with the same letters but for the last share their work.
//!
//! It is not the engine's algorithm. What consecutive words have in common is summed up first and then added once, so it takes
//! fewer steps than one for each nonzero digit of the vectors. It shows what is left to be gained by a better algorithm.
#![forbid(unsafe_code)]

use crate::checks::status;
use crate::digits::{Element, add, empty, split};
use crate::hand_answer::{check_answer, count_up};

/// Adds a host's answer to the sheet; gives 0, or the number of the refusal.
pub fn answer(h: u32, q: u32, table: &[u8], query: &[u8], sheet: &mut [u8]) -> u32 {
    let checked = check_answer(h, q, table, query, sheet);
    if let Ok(words) = checked {
        match words.h {
            1 => add_rows::<1, 0, 1>(words.q, table, query, sheet),
            2 => add_rows::<2, 1, 2>(words.q, table, query, sheet),
            3 => add_rows::<3, 2, 4>(words.q, table, query, sheet),
            4 => add_rows::<4, 3, 7>(words.q, table, query, sheet),
            _ => add_rows::<5, 4, 11>(words.q, table, query, sheet),
        }
    }
    status(checked.map(|_| ()))
}

/// Adds what the entries come to, those of words that differ in the last letter alone together. Of a word of H letters the first
/// FRONT = H − 1 letters settle SETTLED coordinates, and each of the other H goes with the last letter.
fn add_rows<const H: usize, const FRONT: usize, const SETTLED: usize>(
    q: usize,
    table: &[u8],
    query: &[u8],
    sheet: &mut [u8],
) {
    let (value, elements) = split(sheet, query.len());
    let mut front = [0; FRONT];
    for row in table.chunks_exact(q) {
        if !empty(row) {
            let (settled, starts) = coordinates::<H, FRONT, SETTLED>(q, &front);
            let common: u8 = settled.iter().map(|c| query[*c]).sum();
            let mut sums = [0; 6];
            for (letter, &entry) in row.iter().enumerate().filter(|(_, entry)| **entry != 0) {
                let sum: u8 = starts.iter().map(|c| query[c + letter]).sum();
                let exponent = usize::from((common + sum) % 6);
                add(&mut sums[exponent], entry);
                for start in starts {
                    add(&mut elements[start + letter][exponent], entry);
                }
            }
            add_all(value, &sums);
            for c in settled {
                add_all(&mut elements[c], &sums);
            }
        }
        count_up(&mut front, q);
    }
}

/// Adds six digits to six digits.
fn add_all(element: &mut Element, sums: &Element) {
    for (place, sum) in element.iter_mut().zip(sums) {
        add(place, *sum);
    }
}

/// The coordinates that all letters but the last settle, and those where the coordinates for the last letter start.
fn coordinates<const H: usize, const FRONT: usize, const SETTLED: usize>(
    q: usize,
    front: &[usize; FRONT],
) -> ([usize; SETTLED], [usize; H]) {
    let mut settled = [0; SETTLED];
    let mut starts = [0; H];
    for (p, letter) in front.iter().enumerate() {
        settled[1 + p] = 1 + p * q + letter;
    }
    starts[0] = 1 + FRONT * q;
    let (mut place, mut block) = (1 + FRONT, 1 + H * q);
    for i in 0..FRONT {
        for j in i + 1..FRONT {
            settled[place] = block + front[i] * q + front[j];
            place += 1;
            block += q * q;
        }
        starts[1 + i] = block + front[i] * q;
        block += q * q;
    }
    (settled, starts)
}
