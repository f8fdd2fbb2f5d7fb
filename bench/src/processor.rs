//! The machine's processor and how many cores it shows.

use std::fs;

/// The processor's name and the cores, as the system tells them.
pub fn told() -> String {
    let text = fs::read_to_string("/proc/cpuinfo").unwrap_or_default();
    let cores = text
        .lines()
        .filter(|line| line.starts_with("processor"))
        .count();
    let name = field(&text, "model name").unwrap_or("a processor without a name");
    match cores {
        0 => name.to_string(),
        _ => format!("{name}, {cores} cores"),
    }
}

/// The first value of a field.
fn field<'a>(text: &'a str, name: &str) -> Option<&'a str> {
    let line = text.lines().find(|line| line.starts_with(name))?;
    line.split_once(':').map(|(_, value)| value.trim())
}

#[cfg(test)]
mod tests {
    use super::*;

    #[test]
    fn a_field_is_found() {
        assert_eq!(
            field("processor\t: 0\nmodel name\t: A B\n", "model name"),
            Some("A B")
        );
        assert_eq!(field("processor\t: 0\n", "model name"), None);
    }
}
