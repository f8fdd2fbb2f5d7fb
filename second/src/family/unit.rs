//! The unit family: u(i) is 1 at coordinate i alone, and v(i) is 1 everywhere else.

use super::MOST_COORDINATES;
use crate::checks::check_limits;
use crate::fault::{Fault, Layer};

/// The unit family of a count, which also is its dimension.
#[derive(Clone, Debug)]
pub struct Unit {
    count: u64,
}

impl Unit {
    /// The family of so many positions, 1 to 4,096.
    pub fn new(count: u64) -> Result<Unit, Fault> {
        check_limits(Layer::Family, 1, MOST_COORDINATES, count)?;
        Ok(Unit { count })
    }

    /// How many positions there are.
    pub fn count(&self) -> u64 {
        self.count
    }

    /// How many coordinates a vector has.
    pub fn dimension(&self) -> usize {
        self.count as usize
    }

    /// The vector u of a position.
    pub fn u(&self, position: u64) -> Vec<u8> {
        let digit = |coordinate| u8::from(coordinate == position);
        (0..self.count).map(digit).collect()
    }

    /// The vector v of a position.
    pub fn v(&self, position: u64) -> Vec<u8> {
        let digit = |coordinate| u8::from(coordinate != position);
        (0..self.count).map(digit).collect()
    }
}
