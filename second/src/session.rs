//! Sessions: a client's use of a family and a tape. A session is ready, or it waits for the sheets of a lookup.

use crate::checks::{check_below, check_digits, check_equal, check_length};
use crate::digits::{add, dot};
use crate::family::Family;
use crate::fault::{Cause, Fault, Layer};
use crate::recovery::read_sheets;

/// What a session keeps throughout.
#[derive(Debug)]
pub struct Session {
    count: u64,
    dimension: usize,
    tape: Vec<u8>,
    place: usize,
    /// The requests that were taken.
    pub taken: u64,
    /// The lookups that were read.
    pub read: u64,
    /// The lookups that ended unread.
    pub unread: u64,
}

/// A session that takes requests.
#[derive(Debug)]
pub struct Ready(Box<Session>);

/// A session of which a lookup waits.
#[derive(Debug)]
pub struct Waiting {
    session: Box<Session>,
    position: u64,
    shift: u8,
}

impl Session {
    /// How many tape digits are left.
    pub fn left(&self) -> usize {
        self.tape.len() - self.place
    }

    /// Refuses a family of another count or dimension than the session's.
    fn check_family(&self, family: &Family) -> Result<(), Fault> {
        let (needed, found) = (self.count, family.count());
        check_equal(Layer::Session, needed, found)?;
        let (needed, found) = (self.dimension, family.dimension());
        check_equal(Layer::Session, needed as u64, found as u64)
    }
}

impl Ready {
    /// Opens a session on a family and a tape.
    pub fn open(family: &Family, tape: Vec<u8>) -> Result<Ready, Fault> {
        check_digits(&tape)?;
        Ok(Ready(Box::new(Session {
            count: family.count(),
            dimension: family.dimension(),
            tape,
            place: 0,
            taken: 0,
            read: 0,
            unread: 0,
        })))
    }

    /// What the session keeps.
    pub fn session(&self) -> &Session {
        &self.0
    }

    /// Refuses a family of another count or dimension than the session's.
    pub fn check_family(&self, family: &Family) -> Result<(), Fault> {
        self.0.check_family(family)
    }

    /// Refuses a position that is not below the count, or too few tape digits.
    pub fn check_position(&self, position: u64) -> Result<(), Fault> {
        check_below(Layer::Session, self.0.count, position)?;
        let left = self.0.left();
        if left < self.0.dimension {
            return Err(Fault::new(Layer::Session, Cause::Spent(left as u64)));
        }
        Ok(())
    }

    /// Refuses what a request for a position refuses, with rows of the lengths given.
    pub fn check_request(
        &self,
        family: &Family,
        position: u64,
        rows: [u64; 2],
    ) -> Result<(), Fault> {
        self.check_family(family)?;
        for len in rows {
            check_length(len, self.0.dimension as u64)?;
        }
        self.check_position(position)
    }

    /// Requests a position: writes the two queries, and waits. A refusal gives the session back as it was.
    pub fn request(
        self,
        family: &Family,
        position: u64,
        first: &mut [u8],
        second: &mut [u8],
    ) -> Result<Waiting, (Ready, Fault)> {
        let rows = [first.len() as u64, second.len() as u64];
        if let Err(fault) = self.check_request(family, position, rows) {
            return Err((self, fault));
        }
        let mut session = self.0;
        let end = session.place + session.dimension;
        let shift = make_queries(
            family,
            position,
            &session.tape[session.place..end],
            first,
            second,
        );
        session.place = end;
        session.taken += 1;
        Ok(Waiting {
            session,
            position,
            shift,
        })
    }
}

/// Writes both queries from the tape digits z, and gives the shift, the product of u and z.
pub fn make_queries(
    family: &Family,
    position: u64,
    z: &[u8],
    first: &mut [u8],
    second: &mut [u8],
) -> u8 {
    first.copy_from_slice(z);
    let v = family.v(position);
    for c in 0..z.len() {
        second[c] = add(z[c], v[c]);
    }
    dot(&family.u(position), z)
}

impl Waiting {
    /// What the session keeps.
    pub fn session(&self) -> &Session {
        &self.session
    }

    /// The position that was requested.
    pub fn position(&self) -> u64 {
        self.position
    }

    /// Takes the two sheets. Either way the lookup ends, and where it is refused it counts as unread.
    pub fn recover(
        mut self,
        family: &Family,
        one: &[u8],
        two: &[u8],
    ) -> (Ready, Result<u8, Fault>) {
        let entry = self.read(family, one, two);
        match entry {
            Ok(_) => self.session.read += 1,
            Err(_) => self.session.unread += 1,
        }
        (Ready(self.session), entry)
    }

    /// Reads the entry from the two sheets.
    fn read(&self, family: &Family, one: &[u8], two: &[u8]) -> Result<u8, Fault> {
        self.session.check_family(family)?;
        read_sheets(family, self.position, self.shift, one, two)
    }

    /// Ends the lookup without sheets.
    pub fn abandon(mut self) -> Ready {
        self.session.unread += 1;
        Ready(self.session)
    }
}
