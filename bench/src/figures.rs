//! Numbers, times and ratios as text.

/// A time with three digits and its unit.
pub fn time(seconds: f64) -> String {
    let (scaled, unit) = match seconds {
        s if s < 1e-6 => (s * 1e9, "ns"),
        s if s < 1e-3 => (s * 1e6, "µs"),
        s if s < 1.0 => (s * 1e3, "ms"),
        s => (s, "s"),
    };
    format!("{} {unit}", rounded(scaled))
}

/// A ratio with three digits.
pub fn ratio(ratio: f64) -> String {
    match ratio {
        r if r < 10.0 => format!("{r:.2}"),
        r if r < 100.0 => format!("{r:.1}"),
        r => grouped(r.round() as usize),
    }
}

fn rounded(number: f64) -> String {
    match number {
        n if n < 10.0 => format!("{n:.2}"),
        n if n < 100.0 => format!("{n:.1}"),
        n => format!("{n:.0}"),
    }
}

/// A number with a comma before each three of its digits.
pub fn grouped(number: usize) -> String {
    let digits = number.to_string();
    let mut text = String::new();
    for (i, digit) in digits.chars().enumerate() {
        if i > 0 && (digits.len() - i).is_multiple_of(3) {
            text.push(',');
        }
        text.push(digit);
    }
    text
}

#[cfg(test)]
mod tests {
    use super::*;

    #[test]
    fn numbers_are_grouped() {
        assert_eq!(grouped(2), "2");
        assert_eq!(grouped(512), "512");
        assert_eq!(grouped(1_048_576), "1,048,576");
    }

    #[test]
    fn times_have_three_digits_and_a_unit() {
        assert_eq!(time(5.678e-9), "5.68 ns");
        assert_eq!(time(0.0123), "12.3 ms");
        assert_eq!(time(31.25), "31.2 s");
        assert_eq!(time(123e-6), "123 µs");
    }

    #[test]
    fn ratios_are_rounded() {
        assert_eq!(ratio(1.234), "1.23");
        assert_eq!(ratio(56.78), "56.8");
        assert_eq!(ratio(1234.5), "1,235");
    }
}
