//! A second implementation of the private-lookup engine, written from its documentation alone: digit by digit, by
//! polynomial arithmetic, and closest to the text. Clearness comes before speed.

pub mod calls;
pub mod programs;

mod checks;
mod digits;
mod element;
mod family;
mod fault;
mod host;
mod recovery;
mod round;
mod session;
mod tape;

#[cfg(test)]
mod worked;
