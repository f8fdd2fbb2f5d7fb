//! The inputs: families, tables, tapes and books, the same in every run.

use crate::words::Words;

/// The families of lookups, h and q, by their counts.
pub const LOOKUPS: [(u32, u32); 11] = [
    (1, 2),
    (1, 16),
    (5, 2),
    (2, 16),
    (5, 4),
    (3, 16),
    (5, 6),
    (5, 8),
    (4, 16),
    (5, 12),
    (5, 16),
];

/// The families whose books are checked, by pairs times dimension.
pub const BOOKS: [(u32, u32); 8] = [
    (1, 2),
    (2, 4),
    (2, 8),
    (4, 4),
    (2, 16),
    (3, 8),
    (5, 4),
    (3, 10),
];

/// A row of numbers that look random.
pub struct Numbers(u64);

impl Numbers {
    pub fn new(seed: u64) -> Numbers {
        Numbers(seed)
    }

    /// A number below the limit.
    pub fn below(&mut self, limit: usize) -> usize {
        self.0 = self
            .0
            .wrapping_mul(6_364_136_223_846_793_005)
            .wrapping_add(1_442_695_040_888_963_407);
        (self.0 >> 33) as usize % limit
    }

    /// A row of digits.
    pub fn digits(&mut self, len: usize) -> Vec<u8> {
        (0..len).map(|_| self.below(6) as u8).collect()
    }

    /// A table in which no entry is 0.
    pub fn full_table(&mut self, len: usize) -> Vec<u8> {
        (0..len).map(|_| 1 + self.below(5) as u8).collect()
    }

    /// A table in which about one entry in a hundred is not 0, and one is for certain.
    pub fn sparse_table(&mut self, len: usize) -> Vec<u8> {
        let mut table = vec![0; len];
        for _ in 0..len.div_ceil(100) {
            table[self.below(len)] = 1 + self.below(5) as u8;
        }
        table
    }
}

/// The book of a family of words.
pub fn book(words: Words) -> Vec<u8> {
    let count = words.count();
    let mut bytes = (words.dimension() as u16).to_be_bytes().to_vec();
    bytes.extend((count as u32).to_be_bytes());
    bytes.extend((0..count).flat_map(|t| vector(words, t, |_| 1)));
    bytes.extend((count as u32).to_be_bytes());
    bytes.extend((0..count).flat_map(|t| vector(words, t, |weight| weight)));
    bytes
}

/// A vector of a position, with digits made of the weights at its own coordinates.
fn vector(words: Words, position: usize, digit: impl Fn(u8) -> u8) -> Vec<u8> {
    let mut vector = vec![0; words.dimension()];
    for (coordinate, weight) in words.own(position) {
        vector[coordinate] = digit(weight);
    }
    vector
}
