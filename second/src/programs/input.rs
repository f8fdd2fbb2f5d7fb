//! The four lines that `lookup` and `key` read, and the lookup that they ask for.

use crate::family::Family;
use crate::fault::Fault;
use crate::host::{Dense, Host};
use crate::round::{round, Read, Rows};
use crate::session::Ready;

/// The most bytes that the input has.
const MOST_BYTES: usize = 8_192;

/// The largest number on the lines.
const LARGEST: u64 = 4_294_967_295;

/// The number by which input is refused that is not of the grammar.
const NOT_OF_THE_GRAMMAR: u32 = 1;

/// What the lines ask for.
#[derive(Debug, PartialEq, Eq)]
struct Task {
    h: u64,
    q: u64,
    position: u64,
    table: Vec<u8>,
    tape: Vec<u8>,
}

/// A lookup that was read.
#[derive(Debug)]
pub struct Done {
    pub family: Family,
    pub position: u64,
    pub rows: Rows,
    pub read: Read,
}

/// What a program prints for its input: the lines in which it tells a lookup, or the refusal's number.
pub fn reply(input: &[u8], told: fn(&Done) -> String) -> String {
    match run(input) {
        Ok(done) => told(&done),
        Err(number) => format!("refused {number}\n"),
    }
}

/// Does the lookup that the input asks for, or gives the number of the refusal.
fn run(input: &[u8]) -> Result<Done, u32> {
    let task = parse(input).ok_or(NOT_OF_THE_GRAMMAR)?;
    look_up(task).map_err(|fault| fault.number())
}

/// Does a lookup from end to end.
fn look_up(task: Task) -> Result<Done, Fault> {
    let family = Family::words(task.h, task.q)?;
    let host = Host::Dense(Dense::new(task.table)?);
    let ready = Ready::open(&family, task.tape)?;
    let mut rows = Rows::fitting(&family);
    let position = task.position;
    let (_, read) = round(ready, &family, [&host, &host], position, &mut rows);
    let read = read?;
    Ok(Done {
        family,
        position,
        rows,
        read,
    })
}

/// Reads the four lines, where they are of the grammar.
fn parse(input: &[u8]) -> Option<Task> {
    if input.len() > MOST_BYTES {
        return None;
    }
    let lines: Vec<&[u8]> = input.split(|&byte| byte == b'\n').collect();
    let ends = matches!(lines.len(), 4 | 5) && lines[4..].iter().all(|rest| rest.is_empty());
    if !ends {
        return None;
    }
    let [h, q] = numbers(lines[0])?.try_into().ok()?;
    let [position] = numbers(lines[1])?.try_into().ok()?;
    Some(Task {
        h,
        q,
        position,
        table: bytes(&numbers(lines[2])?),
        tape: bytes(&numbers(lines[3])?),
    })
}

/// The numbers of a line, with one space between; none of an empty line.
fn numbers(line: &[u8]) -> Option<Vec<u64>> {
    if line.is_empty() {
        return Some(Vec::new());
    }
    let words = line.split(|&byte| byte == b' ');
    words.map(|word| number(word, LARGEST)).collect()
}

/// A number in base ten, of decimal digits alone and not above the largest.
pub fn number(word: &[u8], largest: u64) -> Option<u64> {
    if word.is_empty() {
        return None;
    }
    let mut number: u64 = 0;
    for byte in word {
        if !byte.is_ascii_digit() {
            return None;
        }
        let digit = u64::from(byte - b'0');
        number = number.checked_mul(10)?.checked_add(digit)?;
    }
    (number <= largest).then_some(number)
}

/// The numbers as bytes. A number too large for a byte is no digit either way, and becomes the largest byte.
fn bytes(numbers: &[u64]) -> Vec<u8> {
    let byte = |&number: &u64| u8::try_from(number).unwrap_or(u8::MAX);
    numbers.iter().map(byte).collect()
}

#[cfg(test)]
mod tests {
    use super::*;

    #[test]
    fn the_grammar_takes() {
        let plain = parse(b"1 2\n1\n2 5\n3 1 4").unwrap();
        assert_eq!(plain.tape, vec![3, 1, 4]);
        assert_eq!(parse(b"01 002\n1\n2 5\n3 1 0000000000004\n"), Some(plain));
        let empty = parse(b"4294967295 0\n4294967295\n\n").unwrap();
        assert_eq!((empty.h, empty.q), (LARGEST, 0));
        assert_eq!((empty.table, empty.tape), (vec![], vec![]));
        assert!(parse(b"1 2\n1\n\n\n").is_some());
        assert_eq!(parse(b"1 2\n1\n256 1000\n").unwrap().table, vec![255, 255]);
    }

    #[test]
    fn the_grammar_refuses() {
        let inputs: [&[u8]; 18] = [
            b"",
            b"1 2\n1\n2 5",
            b"1 2\n1\n2 5\n3 1 4\n\n",
            b"1 2\n1\n2 5\n3 1 4\n5",
            b" 1 2\n1\n2 5\n3 1 4\n",
            b"1 2 \n1\n2 5\n3 1 4\n",
            b"1  2\n1\n2 5\n3 1 4\n",
            b"1 2\n1\n2\t5\n3 1 4\n",
            b"1 2\r\n1\n2 5\n3 1 4\n",
            b"1 2\n+1\n2 5\n3 1 4\n",
            b"1 2\n-1\n2 5\n3 1 4\n",
            b"1 2\n1\n2 5\n3 1 a\n",
            b"1 2\n1\n2 5\n3 1 \xff\n",
            b"1\n1\n2 5\n3 1 4\n",
            b"1 2 3\n1\n2 5\n3 1 4\n",
            b"1 2\n\n2 5\n3 1 4\n",
            b"1 2\n1 1\n2 5\n3 1 4\n",
            b"1 2\n4294967296\n2 5\n3 1 4\n",
        ];
        for input in inputs {
            assert_eq!(parse(input), None, "{input:?}");
        }
    }

    #[test]
    fn the_grammar_is_limited() {
        let mut input = b"1 2\n1\n2 5\n3 1 ".to_vec();
        input.resize(MOST_BYTES, b'0');
        assert!(parse(&input).is_some());
        input.push(b'0');
        assert!(parse(&input).is_none());
    }
}
