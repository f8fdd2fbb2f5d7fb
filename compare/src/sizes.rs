//! How large the families of words are.

use crate::random::Random;

/// Words of `h` letters from an alphabet of `q`.
#[derive(Clone, Copy)]
pub struct Sizes {
    pub h: u32,
    pub q: u32,
}

pub const LARGEST: Sizes = Sizes { h: 5, q: 16 };

impl Sizes {
    /// Every pair within the limits.
    pub fn all() -> impl DoubleEndedIterator<Item = Sizes> {
        (1..=5).flat_map(|h| (2..=16).map(move |q| Sizes { h, q }))
    }

    /// One of those for which all digits of all vectors are at most so many.
    pub fn some(random: &mut Random, most: usize) -> Sizes {
        let fit: Vec<Sizes> = Sizes::all().filter(|s| s.positions() * s.dimension() <= most).collect();
        *random.pick(&fit)
    }

    pub fn positions(self) -> usize {
        (self.q as usize).pow(self.h)
    }

    pub fn dimension(self) -> usize {
        let (h, q) = (self.h as usize, self.q as usize);
        1 + h * q + h * (h - 1) / 2 * q * q
    }

    pub fn sheet(self) -> usize {
        6 * (1 + self.dimension())
    }

    /// A position, and often the first or the last.
    pub fn position(self, random: &mut Random) -> u32 {
        let last = self.positions() - 1;
        let some = random.below(last + 1);
        *random.pick(&[0, last, some, some]) as u32
    }
}
