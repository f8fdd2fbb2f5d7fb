//! The word family: positions are words, and coordinates stand for a set of places with a letter at each of them.

use crate::checks::check_limits;
use crate::fault::{Fault, Layer};

/// The weights of v, by h from 1, and by how many places a coordinate stands for. (0 stands where there is none.)
const WEIGHTS: [[u8; 3]; 5] = [[1, 5, 0], [4, 3, 2], [3, 1, 2], [4, 5, 2], [1, 3, 2]];

/// What a coordinate stands for.
#[derive(Clone, Copy, Debug, PartialEq, Eq)]
enum Coordinate {
    /// No place.
    Nothing,
    /// A place and its letter.
    One(usize, u64),
    /// Two places with a letter each.
    Two(usize, usize, u64, u64),
}

/// The words of h letters from an alphabet of q.
#[derive(Clone, Debug)]
pub struct Words {
    h: usize,
    q: u64,
    coordinates: Vec<Coordinate>,
}

impl Words {
    /// The family of words of h letters, 1 to 5, from an alphabet of q, 2 to 16.
    pub fn new(h: u64, q: u64) -> Result<Words, Fault> {
        check_limits(Layer::Family, 1, 5, h)?;
        check_limits(Layer::Family, 2, 16, q)?;
        let h = h as usize;
        let coordinates = coordinates(h, q);
        Ok(Words { h, q, coordinates })
    }

    /// How many words there are.
    pub fn count(&self) -> u64 {
        self.q.pow(self.h as u32)
    }

    /// How many coordinates a vector has.
    pub fn dimension(&self) -> usize {
        self.coordinates.len()
    }

    /// The vector u of a word: 1 wherever it has the coordinate's letters at the coordinate's places.
    pub fn u(&self, position: u64) -> Vec<u8> {
        let word = self.word(position);
        let digit = |coordinate: &Coordinate| u8::from(coordinate.agrees(&word));
        self.coordinates.iter().map(digit).collect()
    }

    /// The vector v of a word: a weight wherever u is 1.
    pub fn v(&self, position: u64) -> Vec<u8> {
        let word = self.word(position);
        let weights = WEIGHTS[self.h - 1];
        let digit = |coordinate: &Coordinate| {
            u8::from(coordinate.agrees(&word)) * weights[coordinate.places()]
        };
        self.coordinates.iter().map(digit).collect()
    }

    /// The letters of a position's word, the most significant first.
    fn word(&self, position: u64) -> Vec<u64> {
        let letter = |place: usize| position / self.q.pow((self.h - 1 - place) as u32) % self.q;
        (0..self.h).map(letter).collect()
    }
}

impl Coordinate {
    /// How many places it stands for.
    fn places(&self) -> usize {
        match self {
            Coordinate::Nothing => 0,
            Coordinate::One(..) => 1,
            Coordinate::Two(..) => 2,
        }
    }

    /// Whether a word has its letters at its places.
    fn agrees(&self, word: &[u64]) -> bool {
        match *self {
            Coordinate::Nothing => true,
            Coordinate::One(i, c) => word[i] == c,
            Coordinate::Two(i, j, c, d) => word[i] == c && word[j] == d,
        }
    }
}

/// All coordinates in their order: of no place, of one place, of two places.
fn coordinates(h: usize, q: u64) -> Vec<Coordinate> {
    let mut all = vec![Coordinate::Nothing];
    for i in 0..h {
        for c in 0..q {
            all.push(Coordinate::One(i, c));
        }
    }
    for i in 0..h {
        for j in i + 1..h {
            for c in 0..q {
                for d in 0..q {
                    all.push(Coordinate::Two(i, j, c, d));
                }
            }
        }
    }
    all
}

#[cfg(test)]
mod tests {
    use super::*;
    use crate::digits::dot;

    /// By the number of letters in which two words differ.
    const BY_DISTANCE: [u8; 6] = [0, 1, 4, 3, 4, 1];

    /// In how many places two words differ.
    fn distance(a: &[u64], b: &[u64]) -> usize {
        a.iter().zip(b).filter(|(x, y)| x != y).count()
    }

    /// Tries every pair of the positions given.
    fn try_pairs(words: &Words, positions: &[u64]) {
        let vs: Vec<_> = positions.iter().map(|&t| words.v(t)).collect();
        for &i in positions {
            let u = words.u(i);
            for (&j, v) in positions.iter().zip(&vs) {
                let apart = distance(&words.word(i), &words.word(j));
                assert_eq!(dot(&u, v), BY_DISTANCE[apart]);
            }
        }
    }

    #[test]
    fn matching_rule_by_brute_force() {
        for h in 1..=5 {
            for q in 2..=16u64 {
                let words = Words::new(h, q).unwrap();
                if words.count() <= 256 {
                    try_pairs(&words, &(0..words.count()).collect::<Vec<_>>());
                }
            }
        }
    }

    #[test]
    fn matching_rule_by_samples() {
        for q in 2..=16u64 {
            let words = Words::new(5, q).unwrap();
            let last = words.count() - 1;
            let positions: Vec<_> = (0..6).map(|p| last - last / q.pow(p)).collect();
            try_pairs(&words, &positions);
        }
    }

    #[test]
    fn the_smallest_words() {
        let words = Words::new(1, 2).unwrap();
        assert_eq!((words.u(0), words.u(1)), (vec![1, 1, 0], vec![1, 0, 1]));
        assert_eq!(words.v(1), vec![1, 0, 5]);
    }

    #[test]
    fn sizes() {
        for h in 1..=5u64 {
            for q in 2..=16u64 {
                let words = Words::new(h, q).unwrap();
                let k = 1 + h * q + h * (h - 1) / 2 * q * q;
                assert_eq!(words.dimension(), k as usize);
            }
        }
        assert_eq!(Words::new(5, 16).unwrap().dimension(), 2_641);
        assert_eq!(Words::new(5, 16).unwrap().count(), 1_048_576);
    }
}
