//! The three calls from C, on slices. Each gives 0 or the number of the refusal, and a refusal writes nothing.

use crate::checks::{check_below, check_digits, check_length};
use crate::family::Family;
use crate::fault::{Cause, Fault, Layer};
use crate::host::{Dense, Host};
use crate::recovery::read_sheets;
use crate::session::make_queries;

/// Makes the two queries of a lookup.
pub fn request(
    h: u32,
    q: u32,
    position: u32,
    tape: &[u8],
    first: &mut [u8],
    second: &mut [u8],
    shift: &mut [u8],
) -> u32 {
    let rows = [first.len(), second.len(), shift.len()];
    match check_request(h, q, position, tape, rows) {
        Ok(family) => {
            let z = &tape[..family.dimension()];
            shift[0] = make_queries(&family, u64::from(position), z, first, second);
            0
        }
        Err(fault) => fault.number(),
    }
}

/// Adds a host's answer to the sheet.
pub fn answer(h: u32, q: u32, table: &[u8], query: &[u8], sheet: &mut [u8]) -> u32 {
    match try_answer(h, q, table, query, sheet) {
        Ok(()) => 0,
        Err(fault) => fault.number(),
    }
}

/// Reads the entry from two sheets.
pub fn recover(
    h: u32,
    q: u32,
    position: u32,
    shift: &[u8],
    first: &[u8],
    second: &[u8],
    entry: &mut [u8],
) -> u32 {
    let family = check_recovery(h, q, position, [shift, first, second, entry]);
    let position = u64::from(position);
    let read = family.and_then(|family| read_sheets(&family, position, shift[0], first, second));
    match read {
        Ok(digit) => {
            entry[0] = digit;
            0
        }
        Err(fault) => fault.number(),
    }
}

/// Refuses what a request refuses, with the lengths of its three rows, in the order of the calls from C.
fn check_request(
    h: u32,
    q: u32,
    position: u32,
    tape: &[u8],
    rows: [usize; 3],
) -> Result<Family, Fault> {
    let family = Family::words(u64::from(h), u64::from(q))?;
    let k = family.dimension();
    for (len, needed) in rows.into_iter().zip([k, k, 1]) {
        check_length(len as u64, needed as u64)?;
    }
    check_below(Layer::Session, family.count(), u64::from(position))?;
    if tape.len() < k {
        return Err(Fault::new(Layer::Session, Cause::Spent(tape.len() as u64)));
    }
    check_digits(tape)?;
    Ok(family)
}

/// What a dense host does, with its refusals.
fn try_answer(h: u32, q: u32, table: &[u8], query: &[u8], sheet: &mut [u8]) -> Result<(), Fault> {
    let family = Family::words(u64::from(h), u64::from(q))?;
    let host = Host::Dense(Dense::new(table.to_vec())?);
    host.answer(&family, query, sheet)
}

/// Refuses what a recovery refuses but for sheets at odds: the rows are shift, first, second, entry.
fn check_recovery(h: u32, q: u32, position: u32, rows: [&[u8]; 4]) -> Result<Family, Fault> {
    let family = Family::words(u64::from(h), u64::from(q))?;
    let sheet = family.sheet_length();
    for (row, needed) in rows.into_iter().zip([1, sheet, sheet, 1]) {
        check_length(row.len() as u64, needed as u64)?;
    }
    check_below(Layer::Session, family.count(), u64::from(position))?;
    for row in &rows[..3] {
        check_digits(row)?;
    }
    Ok(family)
}
