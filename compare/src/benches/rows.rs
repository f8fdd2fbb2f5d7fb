//! The words that benches read: rows of bytes in hexadecimal, and numbers.

use crate::random::Random;

pub fn row(bytes: &[u8]) -> String {
    match bytes {
        [] => "-".to_string(),
        _ => bytes.iter().map(|byte| format!("{byte:02x}")).collect(),
    }
}

/// A row of so many digits.
pub fn digits(random: &mut Random, count: usize) -> String {
    row(&random.digits(count))
}

/// A row that now and then has a flaw: a byte that is no digit, a byte more or less, another character.
pub fn flawed(random: &mut Random, bytes: &[u8]) -> String {
    let mut bytes = bytes.to_vec();
    match random.below(20) {
        0 => drop(bytes.pop()),
        1 => bytes.push(random.digit()),
        2 | 3 if !bytes.is_empty() => {
            let place = random.below(bytes.len());
            bytes[place] = *random.pick(&[6, 7, 100, 255]);
        }
        4 => return odd_word(random, &bytes),
        _ => (),
    }
    row(&bytes)
}

/// Characters that count as 0, and a lone last one, which is dropped.
fn odd_word(random: &mut Random, bytes: &[u8]) -> String {
    let mut word = row(bytes).into_bytes();
    let place = random.below(word.len());
    match random.below(3) {
        0 => word[place] = *random.pick(b"gxAF-_:"),
        1 => word.push(*random.pick(b"05fz")),
        _ => drop(word.pop()),
    }
    if word.is_empty() {
        word.push(b'-');
    }
    String::from_utf8(word).expect("all of it is ASCII")
}

/// A position below a count, mostly; else the count, or a number far above.
pub fn position(random: &mut Random, count: usize) -> String {
    match random.below(16) {
        0 => count.to_string(),
        1 => (count + 1).to_string(),
        2 => random.pick(&["4294967295", "4294967296", "18446744073709551615", "x", "-1", "1x"]).to_string(),
        3 => (count - 1).to_string(),
        _ => random.below(count).to_string(),
    }
}
