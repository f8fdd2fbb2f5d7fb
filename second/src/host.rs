//! Hosts: tables of digits, and the one rule by which all of them answer.

use std::collections::BTreeMap;

use crate::checks::{check_below, check_digits, check_equal, check_length, check_limits};
use crate::digits::{add, at_place, dot};
use crate::element::Element;
use crate::family::{Family, MOST_POSITIONS};
use crate::fault::{Cause, Fault, Layer};

/// The most changes that a change host holds.
const MOST_CHANGES: usize = 64;

/// A host of one of the three kinds.
#[derive(Clone, Debug)]
pub enum Host {
    Dense(Dense),
    Change(ChangeHost),
    Sum(Box<Host>, Box<Host>),
}

/// A table that is a row of digits.
#[derive(Clone, Debug)]
pub struct Dense {
    table: Vec<u8>,
}

/// A table that is 0 but for a few changes.
#[derive(Clone, Debug)]
pub struct ChangeHost {
    count: u64,
    changes: BTreeMap<u64, u8>,
}

impl Dense {
    /// The host of a table of 1 to 1,048,576 digits.
    pub fn new(table: Vec<u8>) -> Result<Dense, Fault> {
        check_limits(Layer::Host, 1, MOST_POSITIONS, table.len() as u64)?;
        check_digits(&table)?;
        Ok(Dense { table })
    }
}

impl ChangeHost {
    /// The host of 1 to 1,048,576 entries without changes.
    pub fn new(count: u64) -> Result<ChangeHost, Fault> {
        check_limits(Layer::Host, 1, MOST_POSITIONS, count)?;
        let changes = BTreeMap::new();
        Ok(ChangeHost { count, changes })
    }

    /// Sets the change at a position, in place of one held there.
    pub fn set(&mut self, position: u64, digit: u8) -> Result<(), Fault> {
        check_below(Layer::Host, self.count, position)?;
        check_digits(&[digit])?;
        if self.changes.len() >= MOST_CHANGES && !self.changes.contains_key(&position) {
            let held = self.changes.len() as u64;
            return Err(Fault::new(Layer::Host, Cause::Full(held)));
        }
        self.changes.insert(position, digit);
        Ok(())
    }

    /// The change at a position, if one is held.
    pub fn told(&self, position: u64) -> Option<u8> {
        self.changes.get(&position).copied()
    }

    /// All changes, by position.
    pub fn all(&self) -> &BTreeMap<u64, u8> {
        &self.changes
    }

    /// How many entries there are.
    pub fn count(&self) -> u64 {
        self.count
    }

    /// The entry at a position.
    pub fn entry(&self, position: u64) -> u8 {
        self.told(position).unwrap_or(0)
    }
}

impl Host {
    /// The sum of two hosts of one count.
    pub fn sum(first: Host, second: Host) -> Result<Host, Fault> {
        let (needed, found) = (first.count(), second.count());
        check_equal(Layer::Host, needed, found)?;
        Ok(Host::Sum(Box::new(first), Box::new(second)))
    }

    /// How many entries there are.
    pub fn count(&self) -> u64 {
        match self {
            Host::Dense(dense) => dense.table.len() as u64,
            Host::Change(change) => change.count(),
            Host::Sum(first, _) => first.count(),
        }
    }

    /// The entry at a position; beyond the last it is 0.
    pub fn entry(&self, position: u64) -> u8 {
        match self {
            Host::Dense(dense) => at_place(&dense.table, position),
            Host::Change(change) => change.entry(position),
            Host::Sum(first, second) => add(first.entry(position), second.entry(position)),
        }
    }

    /// Adds the answer to a query to what the sheet holds.
    pub fn answer(&self, family: &Family, query: &[u8], sheet: &mut [u8]) -> Result<(), Fault> {
        let (needed, found) = (self.count(), family.count());
        check_equal(Layer::Host, needed, found)?;
        check_length(query.len() as u64, family.dimension() as u64)?;
        check_length(sheet.len() as u64, family.sheet_length() as u64)?;
        check_digits(query)?;
        check_digits(sheet)?;
        let answer = self.sum_up(family, query);
        for (element, places) in answer.iter().zip(sheet.chunks_exact_mut(6)) {
            let held = Element::six(places, 0);
            places.copy_from_slice(&held.plus(element).0);
        }
        Ok(())
    }

    /// The answer to a query, by the definition: the sum over all positions i of the term a(i) g^e(i), and then for each
    /// coordinate c the sum of that term times u(i)c. An entry of 0 is passed over, for its term is 0.
    fn sum_up(&self, family: &Family, query: &[u8]) -> Vec<Element> {
        let powers = Element::powers();
        let mut answer = vec![Element::ZERO; 1 + family.dimension()];
        for position in 0..self.count() {
            let entry = self.entry(position);
            if entry == 0 {
                continue;
            }
            let u = family.u(position);
            let exponent = dot(&u, query);
            let term = powers[usize::from(exponent)].scaled(entry);
            answer[0].gain(&term);
            // The term scaled by each digit, so that no coordinate scales it anew.
            let multiples: [Element; 6] = std::array::from_fn(|digit| term.scaled(digit as u8));
            for (element, &digit) in answer[1..].iter_mut().zip(&u) {
                element.gain(&multiples[usize::from(digit)]);
            }
        }
        answer
    }
}

#[cfg(test)]
mod tests {
    use super::*;

    /// A host's sheet for a query.
    fn sheet(host: &Host, family: &Family, query: &[u8]) -> Vec<u8> {
        let mut sheet = vec![0; family.sheet_length()];
        host.answer(family, query, &mut sheet).unwrap();
        sheet
    }

    /// Asserts that a host's answer, added to a sheet of digits, puts one digit at a place for each term: at a power of g.
    fn assert_by_places(family: &Family, table: &[u8]) {
        let digits = |len: usize| (0..len).map(|c| (c * c % 37 % 6) as u8);
        let query: Vec<u8> = digits(family.dimension()).collect();
        let mut expected: Vec<u8> = digits(family.sheet_length()).collect();
        let mut found = expected.clone();
        let host = Host::Dense(Dense::new(table.to_vec()).unwrap());
        host.answer(family, &query, &mut found).unwrap();
        let (value, elements) = expected.split_at_mut(6);
        for (position, &entry) in (0..).zip(table) {
            let exponent = family.product(position, &query);
            let power = usize::from(exponent);
            value[power] = add(value[power], entry);
            family.spread(position, entry, u64::from(exponent), elements);
        }
        assert_eq!(found, expected);
    }

    #[test]
    fn sheets_by_places() {
        let words = Family::words(3, 4).unwrap();
        let table: Vec<u8> = (0..64).map(|i| (i * i % 23 % 6) as u8).collect();
        assert_by_places(&words, &table);
        assert_by_places(&words.first_part(41).unwrap(), &table[..41]);
        assert_by_places(&Family::unit(64).unwrap(), &table);
        assert_by_places(&Family::words(5, 2).unwrap(), &[5; 32]);
        // With the digits 2 and 4 in u: u(0) = (2, 0), u(1) = (0, 4), v(0) = (0, 1), v(1) = (2, 0).
        let book = [0, 2, 0, 0, 0, 2, 2, 0, 0, 4, 0, 0, 0, 2, 0, 1, 2, 0];
        let book = Family::book(&book).unwrap();
        for table in (0..36).map(|t| [t / 6, t % 6]) {
            assert_by_places(&book, &table);
        }
    }

    #[test]
    fn sums_add_up() {
        let family = Family::unit(3).unwrap();
        let dense = Host::Dense(Dense::new(vec![1, 2, 3]).unwrap());
        let mut change = ChangeHost::new(3).unwrap();
        change.set(1, 5).unwrap();
        change.set(2, 0).unwrap();
        let change = Host::Change(change);
        let query = [5, 1, 0];
        let both = sheet(
            &Host::sum(dense.clone(), change.clone()).unwrap(),
            &family,
            &query,
        );
        let mut turns = sheet(&dense, &family, &query);
        change.answer(&family, &query, &mut turns).unwrap();
        assert_eq!(both, turns);
        let other = Host::Change(ChangeHost::new(4).unwrap());
        let fault = Host::sum(dense, other).unwrap_err();
        assert_eq!(fault, Fault::new(Layer::Host, Cause::Size(4)));
    }

    #[test]
    fn changes_are_limited() {
        let mut host = ChangeHost::new(100).unwrap();
        for position in 0..64 {
            host.set(position, 0).unwrap();
        }
        let full = Fault::new(Layer::Host, Cause::Full(64));
        assert_eq!(host.set(64, 1), Err(full));
        assert_eq!(host.set(63, 5), Ok(()));
        assert_eq!(host.set(100, 9).unwrap_err().cause, Cause::Position(100));
        assert_eq!(host.set(64, 6).unwrap_err().cause, Cause::Digit(0));
        assert_eq!((host.told(0), host.told(64)), (Some(0), None));
    }
}
