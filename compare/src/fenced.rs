//! A row of bytes between two fences, which no call may alter.

const FENCE: usize = 32;

/// Where a row of no bytes points to. Any pointer will do for such a row.
#[derive(Clone, Copy, PartialEq, Eq, Debug)]
pub enum Empty {
    BetweenFences,
    Null,
    Dangling,
}

pub struct Fenced {
    bytes: Vec<u8>,
    empty: Empty,
}

impl Fenced {
    pub fn new(row: &[u8], empty: Empty) -> Fenced {
        let fence = (0..FENCE).map(fence_byte);
        let bytes = fence.clone().chain(row.iter().copied()).chain(fence).collect();
        Fenced { bytes, empty }
    }

    pub fn len(&self) -> usize {
        self.bytes.len() - 2 * FENCE
    }

    pub fn row(&self) -> &[u8] {
        &self.bytes[FENCE..self.bytes.len() - FENCE]
    }

    /// The pointer that a call is handed.
    pub fn pointer(&mut self) -> *mut u8 {
        match self.empty {
            Empty::Null if self.len() == 0 => std::ptr::null_mut(),
            Empty::Dangling if self.len() == 0 => std::ptr::without_provenance_mut(0x10),
            _ => self.bytes[FENCE..].as_mut_ptr(),
        }
    }

    /// Whether both fences are as they were.
    pub fn stands(&self) -> bool {
        let end = self.bytes.len() - FENCE;
        let is_fence = |bytes: &[u8]| bytes.iter().copied().eq((0..FENCE).map(fence_byte));
        is_fence(&self.bytes[..FENCE]) && is_fence(&self.bytes[end..])
    }
}

/// Neither a digit nor the same at every place.
fn fence_byte(place: usize) -> u8 {
    0xa0 + (place % 89) as u8
}
