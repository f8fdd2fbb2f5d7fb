//! Recovery: two sheets become an entry.

use crate::checks::{check_digits, check_length};
use crate::element::Element;
use crate::family::Family;
use crate::fault::{Cause, Fault, Layer};

/// The weights C1 to C4.
pub const WEIGHTS: [Element; 4] = [
    Element([0, 1, 0, 0, 2, 3]),
    Element([0, 5, 0, 0, 4, 3]),
    Element([0, 1, 0, 3, 2, 0]),
    Element([0, 5, 0, 3, 4, 0]),
];

/// The element D.
pub const D: Element = Element([0, 2, 0, 3, 4, 3]);

/// All that a recovery works out on its way.
#[derive(Clone, Debug, PartialEq, Eq)]
pub struct Working {
    /// Y1 to Y4.
    pub y: [Element; 4],
    /// Y1 to Y4 weighed and added up.
    pub w: Element,
    /// W divided by g to the shift.
    pub x: Element,
    /// The entry that X has, or none where it is at odds.
    pub entry: Option<u8>,
}

/// Works out what two rows come to as the sheets for a position and a shift. Nothing is refused.
pub fn work(family: &Family, position: u64, shift: u8, one: &[u8], two: &[u8]) -> Working {
    let v = family.v(position);
    let y = [
        Element::six(one, 0),
        slope(&v, one),
        Element::six(two, 0),
        slope(&v, two),
    ];
    let w = weigh(&y);
    let x = w.turned(u64::from(shift));
    let entry = read_entry(&x);
    Working { y, w, x, entry }
}

/// The sum over all coordinates c of v(c) times the sheet's element of c.
fn slope(v: &[u8], sheet: &[u8]) -> Element {
    let mut sum = Element::ZERO;
    for (c, &digit) in v.iter().enumerate() {
        let element = Element::six(sheet, 6 * (1 + c as u64));
        sum = sum.plus(&element.scaled(digit));
    }
    sum
}

/// W: each of Y1 to Y4 times its weight, added up.
pub fn weigh(y: &[Element; 4]) -> Element {
    let products = y.iter().zip(&WEIGHTS).map(|(y, weight)| weight.times(y));
    products.fold(Element::ZERO, |sum, product| sum.plus(&product))
}

/// The entry that X has: X3 - X1, where X is that times D.
pub fn read_entry(x: &Element) -> Option<u8> {
    let entry = (6 + x.digit(3) - x.digit(1)) % 6;
    (D.scaled(entry) == *x).then_some(entry)
}

/// Reads the entry from two sheets for a position and a shift.
pub fn read_sheets(
    family: &Family,
    position: u64,
    shift: u8,
    one: &[u8],
    two: &[u8],
) -> Result<u8, Fault> {
    check_length(one.len() as u64, family.sheet_length() as u64)?;
    check_length(two.len() as u64, family.sheet_length() as u64)?;
    check_digits(one)?;
    check_digits(two)?;
    let working = work(family, position, shift, one, two);
    let at_odds = Fault::new(Layer::Session, Cause::AtOdds(position));
    working.entry.ok_or(at_odds)
}

#[cfg(test)]
mod tests {
    use super::*;

    /// The element g^s.
    fn power(s: usize) -> Element {
        let mut element = Element::ZERO;
        element.0[s % 6] = 1;
        element
    }

    #[test]
    fn the_weights_cancel() {
        for l in 0..6 {
            let times = |element: Element| element.scaled(l as u8);
            let y = [power(0), times(power(0)), power(l), times(power(l))];
            match l {
                0 => assert_eq!(weigh(&y), D),
                1 | 3 | 4 => assert_eq!(weigh(&y), Element::ZERO),
                2 => assert_eq!(weigh(&y), Element([4, 5, 0, 5, 4, 0])),
                _ => (),
            }
        }
    }

    #[test]
    fn all_entries_are_told_apart() {
        let multiples = [
            [0, 0, 0, 0, 0, 0],
            [0, 2, 0, 3, 4, 3],
            [0, 4, 0, 0, 2, 0],
            [0, 0, 0, 3, 0, 3],
            [0, 2, 0, 0, 4, 0],
            [0, 4, 0, 3, 2, 3],
        ];
        for (entry, multiple) in multiples.iter().enumerate() {
            assert_eq!(read_entry(&Element(*multiple)), Some(entry as u8));
        }
        assert_eq!(read_entry(&Element([0, 1, 0, 0, 2, 3])), None);
        assert_eq!(read_entry(&Element([1, 2, 0, 3, 4, 3])), None);
    }

    #[test]
    fn weighing_by_u_would_read_another_entry() {
        let family = Family::words(1, 2).unwrap();
        let sheet = |r: usize, s: usize| {
            let mut sheet = [0; 24];
            for place in [r, 6 + r, 18 + r] {
                sheet[place] = 5;
            }
            for place in [s, 6 + s, 12 + s] {
                sheet[place] = 2;
            }
            sheet
        };
        let (one, two) = (sheet(1, 4), sheet(1, 5));
        let working = work(&family, 1, 1, &one, &two);
        assert_eq!(working.w, Element([3, 0, 4, 0, 3, 2]));
        assert_eq!(working.entry, Some(5));
        let u = family.u(1);
        let [y1, _, y3, _] = working.y;
        let y = [y1, slope(&u, &one), y3, slope(&u, &two)];
        assert_eq!(y[1], Element([0, 4, 0, 0, 2, 0]));
        assert_eq!(y[3], Element([0, 4, 0, 0, 0, 2]));
        let x = weigh(&y).turned(1);
        assert_eq!((x, read_entry(&x)), (D, Some(1)));
    }
}
