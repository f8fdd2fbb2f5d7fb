//! What a part of the comparison finds: how many cases of each kind came out the same, and those that did not.

use std::collections::BTreeMap;
use std::fmt;

/// A case in which the two implementations do not do the same.
pub struct Difference {
    /// Which part and case, as `--part` and `--case` name it.
    pub case: String,
    pub input: String,
    pub engine: String,
    pub second: String,
}

impl fmt::Display for Difference {
    fn fmt(&self, f: &mut fmt::Formatter) -> fmt::Result {
        writeln!(f, "DIFFERENT: {}", self.case)?;
        writeln!(f, "  input: {}", self.input)?;
        writeln!(f, "  engine: {}", self.engine)?;
        write!(f, "  second: {}", self.second)
    }
}

/// Cases that came out the same, by kind, and those that did not.
#[derive(Default)]
pub struct Tally {
    pub same: BTreeMap<String, u64>,
    pub differences: Vec<Difference>,
}

impl Tally {
    pub fn count(&mut self, kind: String) {
        *self.same.entry(kind).or_default() += 1;
    }

    pub fn add(&mut self, other: Tally) {
        for (kind, count) in other.same {
            *self.same.entry(kind).or_default() += count;
        }
        self.differences.extend(other.differences);
    }

    pub fn total(&self) -> u64 {
        self.same.values().sum::<u64>() + self.differences.len() as u64
    }

    /// How many cases there were of the kinds that begin so.
    pub fn of_kind(&self, start: &str) -> u64 {
        self.same.iter().filter(|(kind, _)| kind.starts_with(start)).map(|(_, count)| count).sum()
    }
}

/// Bytes in hexadecimal. Of a very long row the start and the end; the case can be made again by its number.
pub fn hex(row: &[u8]) -> String {
    const MOST: usize = 20_000;
    let told = |bytes: &[u8]| bytes.iter().map(|byte| format!("{byte:02x}")).collect::<String>();
    match row.len() {
        0 => "-".to_string(),
        1..=MOST => told(row),
        long => format!("{} .. {} bytes more .. {}", told(&row[..1000]), long - 2000, told(&row[long - 1000..])),
    }
}
