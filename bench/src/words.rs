//! The word family as the hand-optimised version and the inputs need it: sizes, own coordinates and weights.

/// For words of 1 to 5 letters the digits of v at coordinates for no place, for one place and for two.
const WEIGHTS: [[u8; 3]; 5] = [[1, 5, 0], [4, 3, 2], [3, 1, 2], [4, 5, 2], [1, 3, 2]];

/// The words of h letters from an alphabet of q.
#[derive(Clone, Copy, Debug, PartialEq, Eq)]
pub struct Words {
    pub h: usize,
    pub q: usize,
}

impl Words {
    /// The family, if both numbers are within their limits.
    pub fn new(h: u32, q: u32) -> Option<Words> {
        let within = (1..=5).contains(&h) && (2..=16).contains(&q);
        within.then_some(Words {
            h: h as usize,
            q: q as usize,
        })
    }

    /// How many positions there are.
    pub fn count(self) -> usize {
        self.q.pow(self.h as u32)
    }

    /// How many coordinates a vector has.
    pub fn dimension(self) -> usize {
        1 + self.h * self.q + self.h * (self.h - 1) / 2 * self.q * self.q
    }

    /// How many digits a sheet has.
    pub fn sheet(self) -> usize {
        6 * (1 + self.dimension())
    }

    /// The letters of a position's word, the first of them the most significant.
    fn letters(self, position: usize) -> [usize; 5] {
        let mut letters = [0; 5];
        let mut rest = position;
        for letter in letters[..self.h].iter_mut().rev() {
            *letter = rest % self.q;
            rest /= self.q;
        }
        letters
    }

    /// The coordinates at which a position's vectors are not 0, each with the digit of v there, in the order of coordinates.
    pub fn own(self, position: usize) -> impl Iterator<Item = (usize, u8)> {
        let Words { h, q } = self;
        let letters = self.letters(position);
        let [none, single, double] = WEIGHTS[h - 1];
        let singles = (0..h).map(move |p| (1 + p * q + letters[p], single));
        let pairs = (0..h).flat_map(move |i| (i + 1..h).map(move |j| (i, j)));
        let doubles = pairs.enumerate().map(move |(block, (i, j))| {
            let start = 1 + h * q + block * q * q;
            (start + letters[i] * q + letters[j], double)
        });
        std::iter::once((0, none)).chain(singles).chain(doubles)
    }
}

#[cfg(test)]
mod tests {
    use super::*;

    #[test]
    fn one_letter_from_two() {
        let words = Words::new(1, 2).unwrap();
        assert_eq!(words.own(1).collect::<Vec<_>>(), [(0, 1), (2, 5)]);
        assert_eq!(
            (words.count(), words.dimension(), words.sheet()),
            (2, 3, 24)
        );
    }

    #[test]
    fn the_largest_family_and_its_last_word() {
        let words = Words::new(5, 16).unwrap();
        assert_eq!((words.count(), words.dimension()), (1_048_576, 2_641));
        let own: Vec<_> = words.own(1_048_575).collect();
        assert_eq!(own.len(), 16);
        assert_eq!(own[5], (80, 3));
        assert_eq!(own[15], (2_640, 2));
    }

    #[test]
    fn limits() {
        assert_eq!(Words::new(0, 2), None);
        assert_eq!(Words::new(6, 2), None);
        assert_eq!(Words::new(1, 1), None);
        assert_eq!(Words::new(1, 17), None);
    }
}
