//! Digits and elements, as the hand-optimised version works with them.

/// An element: six digits, e0 first.
pub type Element = [u8; 6];

/// Adds a digit to a digit.
#[inline]
pub fn add(place: &mut u8, digit: u8) {
    let sum = *place + digit;
    *place = if sum < 6 { sum } else { sum - 6 };
}

/// A sheet's value, and its elements.
pub fn split(sheet: &mut [u8], k: usize) -> (&mut Element, &mut [Element]) {
    let (sheet, _) = sheet.as_chunks_mut();
    let (value, elements) = sheet.split_at_mut(1);
    (&mut value[0], &mut elements[..k])
}

/// Whether all entries are 0. It looks at all of them, without a branch.
#[inline]
pub fn empty(entries: &[u8]) -> bool {
    entries.iter().fold(0, |any, entry| any | entry) == 0
}
