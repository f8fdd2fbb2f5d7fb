//! What a text for `drills` knows of its session, so that most of its lines come at the right time.

use super::families::Family;
use super::hosts;
use super::rows::{digits, flawed, position, row};
use crate::calls::case::{Call, Case};
use crate::calls::lookups::sheet_of;
use crate::fenced::Empty;
use crate::fenced_call;
use crate::random::Random;

/// A session, as far as it is followed: that a line comes at another time than is thought here does no harm.
pub struct Session {
    count: usize,
    dimension: usize,
    left: Vec<u8>,
    waiting: Option<Waiting>,
}

/// A lookup that waits.
struct Waiting {
    position: usize,
    left: Vec<u8>,
}

impl Session {
    pub fn at_first() -> Session {
        Session { count: 1, dimension: 1, left: Vec::new(), waiting: None }
    }

    /// A line for the session on a family.
    pub fn line(&mut self, random: &mut Random, family: &Family) -> String {
        match &self.waiting {
            _ if random.once_in(30) => out_of_turn(random, family, self.waiting.is_some()),
            Some(_) => self.in_wait(random, family),
            None if self.left.len() < self.dimension && !random.once_in(3) => self.open(random, family),
            None if !self.knows(family) && !random.once_in(3) => self.open(random, family),
            None => self.ready(random, family),
        }
    }

    fn knows(&self, family: &Family) -> bool {
        (self.count, self.dimension) == (family.count, family.dimension)
    }

    fn open(&mut self, random: &mut Random, family: &Family) -> String {
        let k = family.dimension;
        let len = random.between(1, 5) * k + random.pick(&[0, 1, k - 1]);
        let tape = random.digits(len);
        let word = flawed(random, &tape);
        if word == row(&tape) {
            *self = Session { count: family.count, dimension: k, left: tape, waiting: None };
        }
        format!("open {word}")
    }

    fn ready(&mut self, random: &mut Random, family: &Family) -> String {
        match random.below(12) {
            0 => "fits".to_string(),
            1 => "counters".to_string(),
            2 => self.open(random, family),
            3 => {
                let lengths = lengths(random, &[family.dimension; 2]);
                format!("check {} {lengths}", position(random, family.count))
            }
            4 => self.round(random, family, "check"),
            5..=7 => self.round(random, family, "round"),
            _ => self.request(random, family),
        }
    }

    fn request(&mut self, random: &mut Random, family: &Family) -> String {
        let fit = [family.dimension; 2];
        let lengths = lengths(random, &fit);
        let t = position(random, family.count);
        if self.knows(family) && lengths == told(&fit) {
            self.take(&t, true);
        }
        format!("request {t} {lengths}")
    }

    /// Takes tape digits for a position, if it is one and there are enough.
    fn take(&mut self, t: &str, waits: bool) {
        let fit = t.parse().ok().filter(|t| *t < self.count && self.left.len() >= self.dimension);
        if let Some(position) = fit {
            let after = self.left.split_off(self.dimension);
            let left = std::mem::replace(&mut self.left, after);
            self.waiting = waits.then_some(Waiting { position, left });
        }
    }

    /// A round with hosts of one table, mostly; at times one of them has another, or is none.
    fn round(&mut self, random: &mut Random, family: &Family, word: &str) -> String {
        let (k, sheet) = (family.dimension, 6 * (1 + family.dimension));
        let fit = [k, k, sheet, sheet];
        let lengths = lengths(random, &fit);
        let t = position(random, family.count);
        let (hosts, sound) = two_hosts(random, family.count);
        if word == "round" && sound && self.knows(family) && lengths == told(&fit) {
            self.take(&t, false);
        }
        format!("{word} {t} {lengths} {hosts}")
    }

    fn in_wait(&mut self, random: &mut Random, family: &Family) -> String {
        match random.below(12) {
            0 => "counters".to_string(),
            1 => {
                self.waiting = None;
                "abandon".to_string()
            }
            2..=5 => self.recover(random, family),
            _ => {
                let (hosts, sound) = two_hosts(random, family.count);
                if sound {
                    self.waiting = None;
                }
                format!("ask {hosts}")
            }
        }
    }

    /// A recovery of sheets that two hosts of one table would answer, where they can be made here; else of others.
    fn recover(&mut self, random: &mut Random, family: &Family) -> String {
        let waiting = self.waiting.take().expect("it waits");
        let sheet = 6 * (1 + family.dimension);
        let sheets = match random.below(4) {
            0 => [vec![0; sheet], vec![0; sheet]],
            1 => [random.digits(sheet), random.digits(sheet)],
            _ => honest(random, family, &waiting).unwrap_or([vec![0; sheet], vec![0; sheet]]),
        };
        format!("recover {} {}", flawed(random, &sheets[0]), flawed(random, &sheets[1]))
    }
}

/// The sheets of a random table for the lookup that waits, of a whole family of words.
fn honest(random: &mut Random, family: &Family, waiting: &Waiting) -> Option<[Vec<u8>; 2]> {
    let sizes = family.words?;
    let k = family.dimension;
    if waiting.left.len() != k || waiting.position >= family.count {
        return None;
    }
    let rows = vec![waiting.left.clone(), vec![0; k], vec![0; k], vec![0; 1]];
    let position = waiting.position as u32;
    let asked = fenced_call::run(&Case { call: Call::Request, h: sizes.h, q: sizes.q, position, rows, empty: Empty::BetweenFences });
    let table = random.digits(family.count);
    Some([1, 2].map(|query| sheet_of(random, sizes, &table, &asked.rows[query])))
}

/// Lengths of rows, of which one is now and then not as it should be.
fn lengths(random: &mut Random, fit: &[usize]) -> String {
    let mut lengths = fit.to_vec();
    if random.once_in(8) {
        let which = random.below(fit.len());
        lengths[which] = *random.pick(&[fit[which] - 1, fit[which] + 1, 0, fit[which] + 6]);
    }
    told(&lengths)
}

fn told(lengths: &[usize]) -> String {
    lengths.iter().map(usize::to_string).collect::<Vec<_>>().join(" ")
}

/// Two hosts, and whether both have that count; at most one is unsound.
fn two_hosts(random: &mut Random, n: usize) -> (String, bool) {
    let table = random.digits(n);
    let one = hosts::of_table(random, &table);
    match random.below(12) {
        0 => (format!("{} {one}", hosts::flawed(random, n)), false),
        1 => (format!("{one} {}", hosts::flawed(random, n)), false),
        2 | 3 => {
            let other = random.digits(n);
            (format!("{one} {}", hosts::of_table(random, &other)), true)
        }
        _ => (format!("{one} {}", hosts::of_table(random, &table)), true),
    }
}

/// A line that is not its turn.
fn out_of_turn(random: &mut Random, family: &Family, waits: bool) -> String {
    let k = family.dimension;
    match (waits, random.below(3)) {
        (true, 0) => format!("open {}", digits(random, k)),
        (true, 1) => format!("request 0 {k} {k}"),
        (true, _) => random.pick(&["fits", "check 0 1 1", "check 0 1 1 12 12 c:1 c:1", "round 0 1 1 12 12 c:1 c:1"]).to_string(),
        (false, 0) => "abandon".to_string(),
        (false, 1) => "recover - -".to_string(),
        (false, _) => "ask c:1 c:1".to_string(),
    }
}
