//! The tests that calls begin with, each of which refuses for one reason.

use crate::fault::{Cause, Fault, Layer};

/// Refuses with 1 a length that is not the one needed.
pub fn check_length(found: u64, needed: u64) -> Result<(), Fault> {
    if found == needed {
        return Ok(());
    }
    Err(Fault::new(Layer::Element, Cause::Length(found)))
}

/// Refuses with 2 a row that holds a byte above 5, naming the place of the first.
pub fn check_digits(row: &[u8]) -> Result<(), Fault> {
    match row.iter().position(|&byte| byte > 5) {
        None => Ok(()),
        Some(place) => Err(Fault::new(Layer::Element, Cause::Digit(place as u64))),
    }
}

/// Refuses with 3 a number below the lowest or above the highest.
pub fn check_limits(layer: Layer, low: u64, high: u64, found: u64) -> Result<(), Fault> {
    if low <= found && found <= high {
        return Ok(());
    }
    Err(Fault::new(layer, Cause::Size(found)))
}

/// Refuses with 3 a number that is not the one needed.
pub fn check_equal(layer: Layer, needed: u64, found: u64) -> Result<(), Fault> {
    check_limits(layer, needed, needed, found)
}

/// Refuses with 6 a position that is not below the count.
pub fn check_below(layer: Layer, count: u64, position: u64) -> Result<(), Fault> {
    if position < count {
        return Ok(());
    }
    Err(Fault::new(layer, Cause::Position(position)))
}
