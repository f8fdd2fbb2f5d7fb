//! The first part of a family: its first positions, with the same dimension and vectors.

use super::Family;
use crate::checks::check_limits;
use crate::fault::{Fault, Layer};

/// The first positions of any family.
#[derive(Clone, Debug)]
pub struct FirstPart {
    whole: Box<Family>,
    count: u64,
}

impl FirstPart {
    /// The first so many positions, 1 to the family's count.
    pub fn new(whole: Family, count: u64) -> Result<FirstPart, Fault> {
        check_limits(Layer::Family, 1, whole.count(), count)?;
        let whole = Box::new(whole);
        Ok(FirstPart { whole, count })
    }

    /// How many positions there are.
    pub fn count(&self) -> u64 {
        self.count
    }

    /// How many coordinates a vector has.
    pub fn dimension(&self) -> usize {
        self.whole.dimension()
    }

    /// The vector u of a position.
    pub fn u(&self, position: u64) -> Vec<u8> {
        self.whole.u(position)
    }

    /// The vector v of a position.
    pub fn v(&self, position: u64) -> Vec<u8> {
        self.whole.v(position)
    }
}
