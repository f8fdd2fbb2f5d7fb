//! What each program prints for the bytes on its standard input.

mod bench;
mod checkbook;
mod drills;
mod input;
mod key;
mod lookup;
mod tell;
mod trials;

/// The program `lookup`.
pub fn lookup(input: &[u8]) -> Vec<u8> {
    lookup::print(input).into_bytes()
}

/// The program `key`.
pub fn key(input: &[u8]) -> Vec<u8> {
    key::print(input).into_bytes()
}

/// The program `checkbook`.
pub fn checkbook(input: &[u8]) -> Vec<u8> {
    checkbook::print(input).into_bytes()
}

/// The test bench `trials`.
pub fn trials(input: &[u8]) -> Vec<u8> {
    trials::print(input).into_bytes()
}

/// The test bench `drills`.
pub fn drills(input: &[u8]) -> Vec<u8> {
    drills::print(input).into_bytes()
}
