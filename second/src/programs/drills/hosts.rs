//! The drills of hosts, and how a word tells a host.

use crate::checks::check_limits;
use crate::family::{Family, MOST_POSITIONS};
use crate::fault::{Fault, Layer};
use crate::host::{ChangeHost, Dense, Host};
use crate::programs::bench::{byte, number, row};
use crate::programs::tell;

/// The answer to a word that tells no host.
const NO_SUCH_HOST: &str = "no such host";

/// The most hosts that a word sums.
const MOST_PARTS: usize = 4;

/// The host that a word tells; else the answer to give instead. All parts are made from left to right, and the first
/// that cannot be is the answer; then they are counted, and then summed.
pub fn host(word: &[u8]) -> Result<Host, String> {
    let mut parts = word.split(|&byte| byte == b'+').map(part);
    let first: Result<Vec<Host>, String> = parts.by_ref().take(MOST_PARTS).collect();
    let first = first?;
    let mut too_many = false;
    for other in parts {
        other?;
        too_many = true;
    }
    if too_many {
        return Err(NO_SUCH_HOST.to_string());
    }
    sum_all(first).map_err(|fault| tell::refusal(&fault))
}

/// Makes one part of a word.
fn part(word: &[u8]) -> Result<Host, String> {
    let words: Vec<&[u8]> = word.split(|&byte| byte == b':').collect();
    let made = match words[..] {
        [b"d", table] => Dense::new(row(table)).map(Host::Dense),
        [b"r", len, digits] => repeated(number(len), &row(digits)),
        [b"c", count] => changed(number(count), &[]),
        [b"c", count, changes] => {
            let changes: Vec<&[u8]> = changes.split(|&byte| byte == b',').collect();
            changed(number(count), &changes)
        }
        _ => return Err(NO_SUCH_HOST.to_string()),
    };
    made.map_err(|fault| tell::refusal(&fault))
}

/// The dense host of so many digits, repeating a row; of an empty row there are none. A length above the limit is
/// refused before its table is made.
fn repeated(len: u64, digits: &[u8]) -> Result<Host, Fault> {
    check_limits(Layer::Host, 0, MOST_POSITIONS, len)?;
    let table = digits.iter().copied().cycle().take(len as usize);
    Dense::new(table.collect()).map(Host::Dense)
}

/// The change host of a count, with changes set in order; one without `=` has the digit 255.
fn changed(count: u64, changes: &[&[u8]]) -> Result<Host, Fault> {
    let mut host = ChangeHost::new(count)?;
    for word in changes {
        let (position, digit) = change(word).unwrap_or((number(word), u8::MAX));
        host.set(position, digit)?;
    }
    Ok(Host::Change(host))
}

/// Reads a change, a position and a digit; none of a word without `=`.
fn change(word: &[u8]) -> Option<(u64, u8)> {
    let at = word.iter().position(|&byte| byte == b'=')?;
    Some((number(&word[..at]), byte(&word[at + 1..])))
}

/// The sum of one to four hosts: of the first two, of the last two, and of both sums.
fn sum_all(hosts: Vec<Host>) -> Result<Host, Fault> {
    let mut hosts = hosts.into_iter();
    // There is at least one, since a word splits into at least one part.
    let [a, b, c, d] = std::array::from_fn(|_| hosts.next());
    let left = sum(a, b)?;
    let right = sum(c, d)?;
    let whole = sum(left, right)?;
    Ok(whole.expect("a word tells at least one host"))
}

/// The sum of two hosts, or the one that there is.
fn sum(first: Option<Host>, second: Option<Host>) -> Result<Option<Host>, Fault> {
    match (first, second) {
        (Some(first), Some(second)) => Host::sum(first, second).map(Some),
        (first, None) => Ok(first),
        (None, second) => Ok(second),
    }
}

/// `host HOST`: the count of the host made.
pub fn host_drill(word: &[u8]) -> String {
    match host(word) {
        Ok(host) => format!("count {}", host.count()),
        Err(answer) => answer,
    }
}

/// `answer HOST ROW ROW`: the sheet after the answer, refused or not.
pub fn answer_drill(family: &Family, word: &[u8], query: &[u8], mut sheet: Vec<u8>) -> String {
    let host = match host(word) {
        Ok(host) => host,
        Err(answer) => return answer,
    };
    match host.answer(family, query, &mut sheet) {
        Ok(()) => format!("sheet{}", tell::short_row(&sheet)),
        Err(fault) => format!("{} sheet{}", tell::refusal(&fault), tell::short_row(&sheet)),
    }
}

/// `dense ROW P ..`: the count of a dense host, and its entry at each position.
pub fn dense_drill(table: Vec<u8>, positions: &[&[u8]]) -> String {
    let host = match Dense::new(table) {
        Ok(dense) => Host::Dense(dense),
        Err(fault) => return tell::refusal(&fault),
    };
    let entry = |position: &&[u8]| format!(" entry {}", host.entry(number(position)));
    let entries: String = positions.iter().map(entry).collect();
    format!("count {}{entries}", host.count())
}

/// `change N TASK ..`: the count of a change host, and after a comma what each task came to.
pub fn change_drill(count: u64, tasks: &[&[u8]]) -> String {
    let mut host = match ChangeHost::new(count) {
        Ok(host) => host,
        Err(fault) => return tell::refusal(&fault),
    };
    let mut told = format!("count {}", host.count());
    for word in tasks {
        told += ", ";
        told += &task(&mut host, word);
    }
    told
}

/// What one task comes to.
fn task(host: &mut ChangeHost, word: &[u8]) -> String {
    if let Some((position, digit)) = change(word) {
        return match host.set(position, digit) {
            Ok(()) => "set".to_string(),
            Err(fault) => tell::refusal(&fault),
        };
    }
    if word == b"all" {
        let changes = host.all().iter();
        let listed: String = changes
            .map(|(at, digit)| format!(" {at}={digit}"))
            .collect();
        return format!("{} held{listed}", host.all().len());
    }
    let position = number(word);
    let digit = host
        .told(position)
        .map_or("none".to_string(), |digit| digit.to_string());
    format!("told {digit} entry {}", host.entry(position))
}
