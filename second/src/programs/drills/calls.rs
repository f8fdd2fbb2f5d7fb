//! The drills of sessions and rounds: each takes the session that there is and gives it as it then is, with an answer.

use super::hosts::host;
use crate::family::Family;
use crate::fault::Fault;
use crate::host::Host;
use crate::programs::bench::{number, row};
use crate::programs::tell;
use crate::round::{check_round, round, Rows};
use crate::session::{Ready, Session, Waiting};

/// The bench's session: ready, or waiting with the two queries that were made.
pub enum Turn {
    Ready(Ready),
    Waiting(Waiting, [Vec<u8>; 2]),
}

/// What a row holds at every place before it is written.
const BEFORE: u8 = 9;

impl Turn {
    /// What the session keeps.
    fn session(&self) -> &Session {
        match self {
            Turn::Ready(ready) => ready.session(),
            Turn::Waiting(waiting, _) => waiting.session(),
        }
    }

    /// Abandons a lookup that waits.
    pub fn end(self) {
        if let Turn::Waiting(waiting, _) = self {
            waiting.abandon();
        }
    }

    /// Does a drill that needs a ready session.
    fn when_ready(self, drill: impl FnOnce(Ready) -> (Turn, String)) -> (Turn, String) {
        match self {
            Turn::Ready(ready) => drill(ready),
            waiting => (waiting, "out of turn".to_string()),
        }
    }

    /// Does a drill that needs a lookup that waits, with its queries.
    fn when_waiting(
        self,
        drill: impl FnOnce(Waiting, [Vec<u8>; 2]) -> (Turn, String),
    ) -> (Turn, String) {
        match self {
            Turn::Waiting(waiting, queries) => drill(waiting, queries),
            ready => (ready, "out of turn".to_string()),
        }
    }
}

/// Does the drill that a line asks for.
pub fn drill(family: &Family, turn: Turn, words: &[&[u8]]) -> (Turn, String) {
    match words {
        [b"counters"] => {
            let told = counters(&turn);
            (turn, told)
        }
        [b"open", tape] => turn.when_ready(|ready| open(family, ready, row(tape))),
        [b"fits"] => turn.when_ready(|ready| {
            let told = told(ready.check_family(family), "fits");
            (Turn::Ready(ready), told)
        }),
        [b"check", t, lens @ ..] if matches!(lens.len(), 2 | 6) => {
            turn.when_ready(|ready| check(family, ready, number(t), lens))
        }
        [b"request", t, a, b] => {
            turn.when_ready(|ready| request(family, ready, number(t), [a, b].map(|w| number(w))))
        }
        [b"round", t, a, b, c, d, one, two] => turn.when_ready(|ready| {
            let lens = [a, b, c, d].map(|word| number(word));
            with_hosts(one, two, ready, |ready, hosts| {
                round_drill(family, ready, number(t), lens, hosts)
            })
        }),
        [b"recover", one, two] => {
            turn.when_waiting(|waiting, _| recover(family, waiting, &row(one), &row(two)))
        }
        [b"ask", one, two] => {
            turn.when_waiting(|waiting, queries| ask(family, waiting, queries, [one, two]))
        }
        [b"abandon"] => turn
            .when_waiting(|waiting, _| (Turn::Ready(waiting.abandon()), "abandoned".to_string())),
        _ => (turn, "no such drill".to_string()),
    }
}

/// A word where nothing is refused, else the refusal.
fn told(outcome: Result<(), Fault>, word: &str) -> String {
    match outcome {
        Ok(()) => word.to_string(),
        Err(fault) => tell::refusal(&fault),
    }
}

/// The entry, else the refusal.
fn told_entry(entry: Result<u8, Fault>) -> String {
    match entry {
        Ok(entry) => format!("entry {entry}"),
        Err(fault) => tell::refusal(&fault),
    }
}

/// The three counters.
fn three_counters(session: &Session) -> String {
    let Session {
        taken,
        read,
        unread,
        ..
    } = session;
    format!("taken {taken} read {read} unread {unread}")
}

/// `counters`: also the digits left, and the position of a lookup that waits.
fn counters(turn: &Turn) -> String {
    let session = turn.session();
    let told = format!("{} left {}", three_counters(session), session.left());
    match turn {
        Turn::Ready(_) => told,
        Turn::Waiting(waiting, _) => format!("{told} waiting for {}", waiting.position()),
    }
}

/// `open ROW`: a session in place of the ready one, which stays where the tape is refused.
fn open(family: &Family, ready: Ready, tape: Vec<u8>) -> (Turn, String) {
    match Ready::open(family, tape) {
        Ok(opened) => (Turn::Ready(opened), "opened".to_string()),
        Err(fault) => (Turn::Ready(ready), tell::refusal(&fault)),
    }
}

/// `check T A B`, or `check T A B C D HOST HOST`.
fn check(family: &Family, ready: Ready, t: u64, words: &[&[u8]]) -> (Turn, String) {
    let taken = "would be taken";
    match words {
        [a, b, c, d, one, two] => with_hosts(one, two, ready, |ready, [first, second]| {
            let lens = [a, b, c, d].map(|word| number(word));
            let outcome = check_round(&ready, family, [&first, &second], t, lens);
            (Turn::Ready(ready), told(outcome, taken))
        }),
        _ => {
            let lens = [0, 1].map(|at| number(words[at]));
            let outcome = ready.check_request(family, t, lens);
            (Turn::Ready(ready), told(outcome, taken))
        }
    }
}

/// Makes two hosts for a drill with a ready session; where one is not made, that is the answer.
fn with_hosts(
    one: &[u8],
    two: &[u8],
    ready: Ready,
    drill: impl FnOnce(Ready, [Host; 2]) -> (Turn, String),
) -> (Turn, String) {
    match host(one).and_then(|first| host(two).map(|second| [first, second])) {
        Ok(hosts) => drill(ready, hosts),
        Err(answer) => (Turn::Ready(ready), answer),
    }
}

/// Two rows with their name.
fn pair(name: &str, [first, second]: [String; 2]) -> String {
    format!("{name}{first} and{second}")
}

/// Two rows that were written.
fn written(name: &str, rows: &[Vec<u8>; 2]) -> String {
    pair(name, [0, 1].map(|at| tell::short_row(&rows[at])))
}

/// Two rows that were not written, of the lengths given.
fn unwritten(name: &str, lens: [u64; 2]) -> String {
    pair(name, lens.map(|len| tell::short_repeated(BEFORE, len)))
}

/// `request T A B`.
fn request(family: &Family, ready: Ready, t: u64, lens: [u64; 2]) -> (Turn, String) {
    let refused = |ready, fault: Fault| {
        let told = format!("{} {}", tell::refusal(&fault), unwritten("queries", lens));
        (Turn::Ready(ready), told)
    };
    if let Err(fault) = ready.check_request(family, t, lens) {
        return refused(ready, fault);
    }
    let [mut first, mut second] = lens.map(|len| vec![BEFORE; len as usize]);
    match ready.request(family, t, &mut first, &mut second) {
        Err((ready, fault)) => refused(ready, fault),
        Ok(waiting) => {
            let queries = [first, second];
            let told = format!("taken {}", written("queries", &queries));
            (Turn::Waiting(waiting, queries), told)
        }
    }
}

/// `round T A B C D HOST HOST`.
fn round_drill(
    family: &Family,
    ready: Ready,
    t: u64,
    lens: [u64; 4],
    hosts: [Host; 2],
) -> (Turn, String) {
    let [first, second] = &hosts;
    let [a, b, c, d] = lens;
    if let Err(fault) = check_round(&ready, family, [first, second], t, lens) {
        let rows = unwritten("queries", [a, b]) + " " + &unwritten("sheets", [c, d]);
        let counters = three_counters(ready.session());
        let told = format!("{} {rows} {counters}", tell::refusal(&fault));
        return (Turn::Ready(ready), told);
    }
    let mut rows = Rows {
        queries: [a, b].map(|len| vec![BEFORE; len as usize]),
        sheets: [c, d].map(|len| vec![BEFORE; len as usize]),
    };
    let (ready, outcome) = round(ready, family, [first, second], t, &mut rows);
    let outcome = match outcome {
        Ok(read) => format!("entry {} carried {}", read.entry, read.carried),
        Err(fault) => tell::refusal(&fault),
    };
    let rows = written("queries", &rows.queries) + " " + &written("sheets", &rows.sheets);
    let counters = three_counters(ready.session());
    (Turn::Ready(ready), format!("{outcome} {rows} {counters}"))
}

/// `recover ROW ROW`.
fn recover(family: &Family, waiting: Waiting, one: &[u8], two: &[u8]) -> (Turn, String) {
    let (ready, entry) = waiting.recover(family, one, two);
    (Turn::Ready(ready), told_entry(entry))
}

/// `ask HOST HOST`: where a host is not made or refuses, the lookup still waits.
fn ask(
    family: &Family,
    waiting: Waiting,
    queries: [Vec<u8>; 2],
    words: [&[u8]; 2],
) -> (Turn, String) {
    match sheets(family, &queries, words) {
        Ok([one, two]) => recover(family, waiting, &one, &two),
        Err(answer) => (Turn::Waiting(waiting, queries), answer),
    }
}

/// What two hosts answer to two queries into zeroed sheets; else the answer to give instead.
fn sheets(
    family: &Family,
    queries: &[Vec<u8>; 2],
    words: [&[u8]; 2],
) -> Result<[Vec<u8>; 2], String> {
    let hosts = [host(words[0])?, host(words[1])?];
    let mut sheets = [0, 1].map(|_| vec![0; family.sheet_length()]);
    for ((host, query), sheet) in hosts.iter().zip(queries).zip(&mut sheets) {
        let outcome = host.answer(family, query, sheet);
        outcome.map_err(|fault| tell::refusal(&fault))?;
    }
    Ok(sheets)
}
