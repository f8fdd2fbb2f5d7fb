//! The engine: the three calls of `include/visordate.h`, as C has them and on slices.

/// The calls as C has them: each row is a pointer and its length.
pub mod c {
    unsafe extern "C" {
        pub fn visordate_request(
            h: u32,
            q: u32,
            position: u32,
            tape: *const u8,
            tape_len: usize,
            first: *mut u8,
            first_len: usize,
            second: *mut u8,
            second_len: usize,
            shift: *mut u8,
            shift_len: usize,
        ) -> u32;

        pub fn visordate_answer(
            h: u32,
            q: u32,
            table: *const u8,
            table_len: usize,
            query: *const u8,
            query_len: usize,
            sheet: *mut u8,
            sheet_len: usize,
        ) -> u32;

        pub fn visordate_recover(
            h: u32,
            q: u32,
            position: u32,
            shift: *const u8,
            shift_len: usize,
            first: *const u8,
            first_len: usize,
            second: *const u8,
            second_len: usize,
            entry: *mut u8,
            entry_len: usize,
        ) -> u32;
    }
}

/// Makes the two queries of a lookup; gives 0, or the number of the refusal.
pub fn request(
    h: u32,
    q: u32,
    position: u32,
    tape: &[u8],
    first: &mut [u8],
    second: &mut [u8],
    shift: &mut [u8],
) -> u32 {
    // SAFETY: each pointer goes with its slice's own length, and slices that are written overlap no other.
    unsafe {
        c::visordate_request(
            h,
            q,
            position,
            tape.as_ptr(),
            tape.len(),
            first.as_mut_ptr(),
            first.len(),
            second.as_mut_ptr(),
            second.len(),
            shift.as_mut_ptr(),
            shift.len(),
        )
    }
}

/// Adds a host's answer to the sheet; gives 0, or the number of the refusal.
pub fn answer(h: u32, q: u32, table: &[u8], query: &[u8], sheet: &mut [u8]) -> u32 {
    // SAFETY: as for a request.
    unsafe {
        c::visordate_answer(
            h,
            q,
            table.as_ptr(),
            table.len(),
            query.as_ptr(),
            query.len(),
            sheet.as_mut_ptr(),
            sheet.len(),
        )
    }
}

/// Reads the entry from two sheets; gives 0, or the number of the refusal.
pub fn recover(
    h: u32,
    q: u32,
    position: u32,
    shift: &[u8],
    first: &[u8],
    second: &[u8],
    entry: &mut [u8],
) -> u32 {
    // SAFETY: as for a request; rows that are only read may overlap each other.
    unsafe {
        c::visordate_recover(
            h,
            q,
            position,
            shift.as_ptr(),
            shift.len(),
            first.as_ptr(),
            first.len(),
            second.as_ptr(),
            second.len(),
            entry.as_mut_ptr(),
            entry.len(),
        )
    }
}
