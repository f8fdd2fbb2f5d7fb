//! The command line.

/// Which cases are compared.
pub struct Options {
    pub seed: u64,
    pub times: u64,
    /// Only this part.
    pub part: Option<String>,
    /// Only the case of this number.
    pub case: Option<u64>,
    /// How many differences of each part are told in full.
    pub told: u64,
    /// The folder of the crates, in which the programs are.
    pub crates: String,
}

pub const USAGE: &str = "usage: compare [--seed N] [--times N] [--part NAME] [--case N] [--told N] [--crates FOLDER]";

impl Options {
    pub fn read(mut words: impl Iterator<Item = String>) -> Result<Options, String> {
        let mut options = Options { seed: 1, times: 1, part: None, case: None, told: 5, crates: "crates".to_string() };
        while let Some(name) = words.next() {
            let value = words.next().ok_or(format!("{name} wants a value\n{USAGE}"))?;
            match name.as_str() {
                "--seed" => options.seed = number(&value)?,
                "--times" => options.times = number(&value)?,
                "--part" => options.part = Some(value),
                "--case" => options.case = Some(number(&value)?),
                "--told" => options.told = number(&value)?,
                "--crates" => options.crates = value,
                _ => return Err(format!("{name} is no option\n{USAGE}")),
            }
        }
        Ok(options)
    }

    /// The cases of a part that has so many: all of them, or the one that was asked for.
    pub fn cases(&self, many: u64) -> (u64, u64) {
        match self.case {
            Some(case) => (case, case + 1),
            None => (0, many * self.times),
        }
    }
}

fn number(word: &str) -> Result<u64, String> {
    word.parse().map_err(|_| format!("{word} is no number\n{USAGE}"))
}
