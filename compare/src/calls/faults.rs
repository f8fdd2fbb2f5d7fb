//! Faults that a call must refuse, put into a case one or two at a time, so that the order in which it refuses shows.

use super::case::{Call, Case};
use crate::random::Random;
use crate::sizes::Sizes;

#[derive(Clone, Copy)]
enum Fault {
    Letters(u32),
    Alphabet(u32),
    /// The count and so much more; past the largest number there is, that one.
    Position(u32),
    Length(usize, Length),
    Byte(usize, Place, u8),
}

#[derive(Clone, Copy)]
enum Length {
    OneShort,
    OneLong,
    None,
    /// That of another family.
    Other,
    /// More entries than any table may have.
    TooMany,
}

#[derive(Clone, Copy)]
enum Place {
    First,
    Last,
    Anywhere,
    /// After the digits that a request takes.
    BeyondTaken,
}

/// Puts in the combination of faults of a number: each alone, and each two, by turns.
pub fn put(random: &mut Random, case: &mut Case, number: u64) {
    let all = all_of(case.call);
    let sizes = Sizes { h: case.h, q: case.q };
    let combinations = all.len() * all.len();
    let number = (number % combinations as u64) as usize;
    // the fault with itself stands for the fault alone
    let (one, other) = (number / all.len(), number % all.len());
    put_one(random, case, sizes, all[one]);
    if one != other {
        put_one(random, case, sizes, all[other]);
    }
}

fn all_of(call: Call) -> Vec<Fault> {
    let mut all: Vec<Fault> = [0, 6, 17, 1 << 31, u32::MAX].map(Fault::Letters).to_vec();
    all.extend([0, 1, 17, 1 << 31, u32::MAX].map(Fault::Alphabet));
    if call != Call::Answer {
        all.extend([0, 1, 4000, u32::MAX].map(Fault::Position));
    }
    for row in 0..call.rows().len() {
        all.extend(lengths(call, row).iter().map(|length| Fault::Length(row, *length)));
        for place in places(call, row) {
            all.extend([6, 255].map(|byte| Fault::Byte(row, *place, byte)));
        }
    }
    all
}

fn lengths(call: Call, row: usize) -> &'static [Length] {
    match (call, row) {
        (Call::Request, 0) => &[Length::OneShort, Length::None],
        (Call::Answer, 0) => &[Length::OneShort, Length::OneLong, Length::None, Length::Other, Length::TooMany],
        _ => &[Length::OneShort, Length::OneLong, Length::None],
    }
}

/// Where a byte that is no digit is put; a row that is only written to may hold any.
fn places(call: Call, row: usize) -> &'static [Place] {
    match (call, row) {
        (Call::Request, 0) => &[Place::First, Place::Last, Place::Anywhere, Place::BeyondTaken],
        (Call::Request, _) | (Call::Recover, 3) => &[],
        _ => &[Place::First, Place::Last, Place::Anywhere],
    }
}

fn put_one(random: &mut Random, case: &mut Case, sizes: Sizes, fault: Fault) {
    match fault {
        Fault::Letters(h) => case.h = h,
        Fault::Alphabet(q) => case.q = q,
        Fault::Position(more) => case.position = (sizes.positions() as u32).saturating_add(more),
        Fault::Length(row, length) => {
            let taken = case.call == Call::Request && row == 0;
            let fit = if taken { sizes.dimension() } else { case.rows[row].len() };
            let len = wrong_length(random, fit, length);
            let filling = random.digit();
            case.rows[row].resize(len, filling);
        }
        Fault::Byte(row, place, byte) => put_byte(random, &mut case.rows[row], sizes, place, byte),
    }
}

fn wrong_length(random: &mut Random, fit: usize, length: Length) -> usize {
    match length {
        Length::OneShort => fit.saturating_sub(1),
        Length::OneLong => fit + 1,
        Length::None => 0,
        Length::Other => Sizes::some(random, 100_000_000).positions(),
        Length::TooMany => 1_048_577,
    }
}

fn put_byte(random: &mut Random, row: &mut Vec<u8>, sizes: Sizes, place: Place, byte: u8) {
    let place = match place {
        Place::First => 0,
        Place::Last => row.len().saturating_sub(1),
        Place::Anywhere => random.below(row.len().max(1)),
        Place::BeyondTaken => {
            let place = sizes.dimension() + random.below(50);
            row.resize(row.len().max(place + 1), 0);
            place
        }
    };
    if let Some(digit) = row.get_mut(place) {
        *digit = byte;
    }
}
