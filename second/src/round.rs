//! A round: one call that does a lookup from end to end.

use crate::checks::{check_equal, check_length};
use crate::family::Family;
use crate::fault::{Fault, Layer};
use crate::host::Host;
use crate::session::Ready;

/// The four rows that a round writes.
#[derive(Clone, Debug)]
pub struct Rows {
    pub queries: [Vec<u8>; 2],
    pub sheets: [Vec<u8>; 2],
}

/// What a round gives.
#[derive(Clone, Copy, Debug, PartialEq, Eq)]
pub struct Read {
    pub entry: u8,
    /// The digits that went each way.
    pub carried: usize,
}

impl Rows {
    /// Rows that fit a family.
    pub fn fitting(family: &Family) -> Rows {
        let query = vec![0; family.dimension()];
        let sheet = vec![0; family.sheet_length()];
        Rows {
            queries: [query.clone(), query],
            sheets: [sheet.clone(), sheet],
        }
    }

    /// The lengths: both queries, then both sheets.
    fn lengths(&self) -> [u64; 4] {
        let [first, second] = &self.queries;
        let [one, two] = &self.sheets;
        [first, second, one, two].map(|row| row.len() as u64)
    }
}

/// Refuses what a round refuses beforehand, with rows of the lengths given.
pub fn check_round(
    ready: &Ready,
    family: &Family,
    hosts: [&Host; 2],
    position: u64,
    rows: [u64; 4],
) -> Result<(), Fault> {
    ready.check_family(family)?;
    for host in hosts {
        let (needed, found) = (family.count(), host.count());
        check_equal(Layer::Host, needed, found)?;
    }
    let (query, sheet) = (family.dimension() as u64, family.sheet_length() as u64);
    for (len, needed) in rows.into_iter().zip([query, query, sheet, sheet]) {
        check_length(len, needed)?;
    }
    ready.check_position(position)
}

/// Does a lookup from end to end: request, answers into zeroed sheets, recovery.
pub fn round(
    ready: Ready,
    family: &Family,
    hosts: [&Host; 2],
    position: u64,
    rows: &mut Rows,
) -> (Ready, Result<Read, Fault>) {
    if let Err(fault) = check_round(&ready, family, hosts, position, rows.lengths()) {
        return (ready, Err(fault));
    }
    let [first, second] = &mut rows.queries;
    let waiting = match ready.request(family, position, first, second) {
        Ok(waiting) => waiting,
        Err((ready, fault)) => return (ready, Err(fault)),
    };
    for ((host, query), sheet) in hosts.iter().zip(&rows.queries).zip(&mut rows.sheets) {
        sheet.fill(0);
        if let Err(fault) = host.answer(family, query, sheet) {
            return (waiting.abandon(), Err(fault));
        }
    }
    let [one, two] = &rows.sheets;
    let (ready, entry) = waiting.recover(family, one, two);
    let carried = rows.lengths().iter().sum::<u64>() as usize;
    (ready, entry.map(|entry| Read { entry, carried }))
}
