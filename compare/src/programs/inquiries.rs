//! Inputs of `lookup` and `key`: four lines, as they should be or damaged.

use crate::random::Random;
use crate::sizes::Sizes;

const MOST: usize = 8192;

/// Four lines of numbers, as they will be written.
struct Lines([Vec<String>; 4]);

/// The input of a case: every third as it should be, every third with wrong numbers, and every third with damaged bytes.
pub fn input(random: &mut Random, number: u64) -> Vec<u8> {
    let mut lines = sound(random);
    if number % 3 == 1 {
        for _ in 0..random.between(1, 2) {
            wrong_number(random, &mut lines);
        }
    }
    if random.once_in(4) {
        leading_zeros(random, &mut lines);
    }
    let mut bytes = lines.written();
    if random.once_in(8) {
        // the last line feed may be missing
        bytes.pop();
    }
    if number % 3 == 2 {
        for _ in 0..random.between(1, 2) {
            damage(random, &mut bytes);
        }
    }
    bytes
}

impl Lines {
    fn written(&self) -> Vec<u8> {
        self.0.iter().map(|line| line.join(" ") + "\n").collect::<String>().into_bytes()
    }
}

fn told(row: &[u8]) -> Vec<String> {
    row.iter().map(|digit| digit.to_string()).collect()
}

/// A lookup of words that fit into the input.
fn sound(random: &mut Random) -> Lines {
    let fit: Vec<Sizes> = Sizes::all().filter(|s| 2 * (s.positions() + s.dimension()) + 40 <= MOST).collect();
    let small: Vec<Sizes> = fit.iter().copied().filter(|s| s.positions() + s.dimension() < 200).collect();
    let among = if random.once_in(4) { &fit } else { &small };
    let sizes = *random.pick(among);
    let table = random.digits(sizes.positions());
    let more = *random.pick(&[0, 0, 1, 7]);
    let tape = random.digits(sizes.dimension() + more);
    let position = sizes.position(random);
    Lines([vec![sizes.h.to_string(), sizes.q.to_string()], vec![position.to_string()], told(&table), told(&tape)])
}

/// A number of a kind that is refused or just not; or one too few, or one too many.
fn wrong_number(random: &mut Random, lines: &mut Lines) {
    let line = random.below(4);
    let of_line: &[&str] = match line {
        0 => &["0", "1", "2", "3", "5", "6", "16", "17", "4294967295", "4294967296"],
        1 => &["0", "1", "2", "15", "16", "1048576", "2147483648", "4294967295", "4294967296", "18446744073709551616"],
        _ => &["6", "9", "255", "256", "262", "65536", "65541", "4294967295", "4294967296", "99999999999999999999999"],
    };
    let word = random.pick(of_line).to_string();
    let numbers = &mut lines.0[line];
    if numbers.is_empty() {
        return numbers.push(word);
    }
    let place = random.below(numbers.len());
    match random.below(8) {
        0 => drop(numbers.remove(place)),
        1 => numbers.insert(place, random.digit().to_string()),
        2 => numbers.clear(),
        3 if line == 1 => numbers[0] = random.below(5000).to_string(),
        4 if line > 1 => numbers.truncate(place),
        _ => numbers[place] = word,
    }
}

/// Zeros before a number: a few, or so many that the input comes to the limit, one less or one more.
fn leading_zeros(random: &mut Random, lines: &mut Lines) {
    let room = (MOST + 1).saturating_sub(lines.written().len());
    let zeros = *random.pick(&[1, 2, 20, room, room.saturating_sub(1), room.saturating_sub(2)]);
    let line = random.below(4);
    let numbers = &mut lines.0[line];
    if !numbers.is_empty() {
        let place = random.below(numbers.len());
        numbers[place].insert_str(0, &"0".repeat(zeros));
    }
}

const OTHERS: &[u8] = b"0123456789  \n\n\r\t+-.,:x/\0\x0b\x7f\x80\xa0\xff";

fn damage(random: &mut Random, bytes: &mut Vec<u8>) {
    let place = random.below(bytes.len() + 1);
    let at = place.min(bytes.len().saturating_sub(1));
    match random.below(13) {
        0 if !bytes.is_empty() => bytes[at] = *random.pick(OTHERS),
        1 if !bytes.is_empty() => drop(bytes.remove(at)),
        2 if !bytes.is_empty() => bytes.insert(at, bytes[at]),
        3 => bytes.insert(place, *random.pick(OTHERS)),
        4 => bytes.truncate(place),
        5 => drop_line(random, bytes),
        6 => double_line(random, bytes),
        7 => bytes.extend(*random.pick(&[&b"\n"[..], b" ", b"0", b"\n\n", b"5\n", b"1 2\n", b"\r\n", b"\0"])),
        8 => carriage_returns(bytes),
        11 => far_too_long(random, bytes),
        9 => replace_one(random, bytes, b' ', &[b"  ", b"\t", b"", b"\n", b", ", b"\xc2\xa0"]),
        10 => replace_one(random, bytes, b'\n', &[b"\r\n", b"\r", b" \n", b"\n ", b"\n\n", b"", b"\xe2\x80\xa8"]),
        _ => {
            let zeros = (MOST + 1).saturating_sub(bytes.len());
            bytes.splice(0..0, std::iter::repeat_n(b'0', zeros));
        }
    }
}

/// Far more bytes than an input may have, by numbers that are in order.
fn far_too_long(random: &mut Random, bytes: &mut Vec<u8>) {
    let more = random.between(1, 30_000);
    bytes.splice(0..0, std::iter::repeat_n(b'0', MOST + more));
}

fn lines_of(bytes: &[u8]) -> Vec<Vec<u8>> {
    bytes.split_inclusive(|byte| *byte == b'\n').map(<[u8]>::to_vec).collect()
}

fn drop_line(random: &mut Random, bytes: &mut Vec<u8>) {
    let mut lines = lines_of(bytes);
    if !lines.is_empty() {
        lines.remove(random.below(lines.len()));
    }
    *bytes = lines.concat();
}

fn double_line(random: &mut Random, bytes: &mut Vec<u8>) {
    let mut lines = lines_of(bytes);
    if !lines.is_empty() {
        let line = random.below(lines.len());
        lines.insert(line, lines[line].clone());
    }
    *bytes = lines.concat();
}

fn carriage_returns(bytes: &mut Vec<u8>) {
    *bytes = lines_of(bytes).join(&b'\r');
}

/// Puts something else in the place of one of the bytes that are so.
fn replace_one(random: &mut Random, bytes: &mut Vec<u8>, old: u8, new: &[&[u8]]) {
    let places: Vec<usize> = (0..bytes.len()).filter(|place| bytes[*place] == old).collect();
    if !places.is_empty() {
        let place = *random.pick(&places);
        bytes.splice(place..=place, random.pick(new).iter().copied());
    }
}
