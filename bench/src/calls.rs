//! The implementations of the three calls.

use crate::{hand, hand_answer, shared};

type Request = fn(u32, u32, u32, &[u8], &mut [u8], &mut [u8], &mut [u8]) -> u32;
pub type Answer = fn(u32, u32, &[u8], &[u8], &mut [u8]) -> u32;
type Recover = fn(u32, u32, u32, &[u8], &[u8], &[u8], &mut [u8]) -> u32;

/// One implementation.
#[derive(Clone, Copy)]
pub struct Calls {
    pub request: Request,
    pub answer: Answer,
    pub recover: Recover,
}

pub const ENGINE: Calls = Calls {
    request: engine::request,
    answer: engine::answer,
    recover: engine::recover,
};

pub const HAND: Calls = Calls {
    request: hand::request,
    answer: hand_answer::answer,
    recover: hand::recover,
};

pub const SECOND: Calls = Calls {
    request: second::calls::request,
    answer: second::calls::answer,
    recover: second::calls::recover,
};

/// The other way to answer, which has no calls of its own for the rest.
pub const SHARED: Answer = shared::answer;
