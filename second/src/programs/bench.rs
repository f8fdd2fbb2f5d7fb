//! What both test benches read: lines, words, numbers, rows.

use super::input;

/// The lines of an input. What stands after the last line feed is a line if it is not empty.
pub fn lines(input: &[u8]) -> Vec<&[u8]> {
    let mut lines: Vec<&[u8]> = input.split(|&byte| byte == b'\n').collect();
    if lines.last().is_some_and(|last| last.is_empty()) {
        lines.pop();
    }
    lines
}

/// The words of a line, with one space between; two spaces make an empty word.
pub fn words(line: &[u8]) -> Vec<&[u8]> {
    line.split(|&byte| byte == b' ').collect()
}

/// The number in a word; a word that is no number counts as the largest there is.
pub fn number(word: &[u8]) -> u64 {
    number_up_to(word, u64::MAX)
}

/// The number in a word that tells an amount, a shift or a digit: a byte, of which the largest is 255.
pub fn byte(word: &[u8]) -> u8 {
    number_up_to(word, u64::from(u8::MAX)) as u8
}

/// The number in a word, which may have a plus sign before it; the largest, where it is none or above that.
fn number_up_to(word: &[u8], largest: u64) -> u64 {
    let unsigned = word.strip_prefix(b"+").unwrap_or(word);
    input::number(unsigned, largest).unwrap_or(largest)
}

/// The row in a word of hexadecimal digits, two for each byte. Another character counts as 0, and a lone last one is
/// dropped; so of `-` there is no byte.
pub fn row(word: &[u8]) -> Vec<u8> {
    let byte = |pair: &[u8]| 16 * hex_digit(pair[0]) + hex_digit(pair[1]);
    word.chunks_exact(2).map(byte).collect()
}

/// The value of a hexadecimal digit; its letters are small.
fn hex_digit(character: u8) -> u8 {
    match character {
        b'0'..=b'9' => character - b'0',
        b'a'..=b'f' => character - b'a' + 10,
        _ => 0,
    }
}

/// The examples of a page: in each line what is asked, and after two spaces or more what is answered.
#[cfg(test)]
pub fn examples(page: &str) -> Vec<(&str, &str)> {
    let parts = page.lines().map(|line| line.split_once("  ").unwrap());
    parts
        .map(|(asked, answer)| (asked, answer.trim_start()))
        .collect()
}

#[cfg(test)]
mod tests {
    use super::*;

    #[test]
    fn rows() {
        assert_eq!(row(b"-"), vec![]);
        assert_eq!(row(b"00ff0a"), vec![0, 255, 10]);
        assert_eq!(row(b"0AfFG1"), vec![0, 240, 1]);
        assert_eq!(row(b""), vec![]);
        assert_eq!(row(b"x1-05"), vec![1, 0]);
        assert_eq!(row(b"5"), vec![]);
    }

    #[test]
    fn numbers() {
        assert_eq!(number(b"0042"), 42);
        assert_eq!(number(b"+0042"), 42);
        assert_eq!(number(b"4294967296"), 4_294_967_296);
        assert_eq!(number(b"18446744073709551614"), u64::MAX - 1);
        assert_eq!(number(b"00018446744073709551615"), u64::MAX);
        for word in [
            "18446744073709551616",
            "-1",
            "",
            "+",
            "++1",
            "1+",
            "0x1",
            "1_0",
        ] {
            assert_eq!(number(word.as_bytes()), u64::MAX, "{word}");
        }
    }

    #[test]
    fn bytes() {
        assert_eq!((byte(b"0"), byte(b"+007"), byte(b"254")), (0, 7, 254));
        for word in ["255", "256", "18446744073709551616", "x", ""] {
            assert_eq!(byte(word.as_bytes()), 255, "{word}");
        }
    }

    #[test]
    fn lines_and_words() {
        assert_eq!(lines(b"a\n\nb"), vec![&b"a"[..], b"", b"b"]);
        assert_eq!(lines(b"a\n"), vec![b"a"]);
        assert!(lines(b"").is_empty());
        assert_eq!(words(b"a bc"), vec![&b"a"[..], b"bc"]);
        assert_eq!(words(b"a  b\t "), vec![&b"a"[..], b"", b"b\t", b""]);
        assert_eq!(words(b""), vec![b""]);
    }
}
