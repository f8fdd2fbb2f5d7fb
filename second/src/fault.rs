//! Refusals: a fault holds the layer it speaks for and a cause with what it names.

use std::fmt;

/// The part of the engine that a fault speaks for.
#[derive(Clone, Copy, Debug, PartialEq, Eq)]
pub enum Layer {
    Element,
    Family,
    Host,
    Session,
}

/// The reason of a refusal, with what it names.
#[derive(Clone, Copy, Debug, PartialEq, Eq)]
pub enum Cause {
    /// A row has another length than it must; names the length found.
    Length(u64),
    /// A digit above 5; names its place.
    Digit(u64),
    /// A number outside its limits, or unlike the one it must equal; names it.
    Size(u64),
    /// A book's second count is not its first; names the second.
    Counts(u64),
    /// A pair of positions breaks the matching rule; names both.
    Unmatched(u64, u64),
    /// A position not below the count; names it.
    Position(u64),
    /// Fewer tape digits are left than a request takes; names the digits left.
    Spent(u64),
    /// What two sheets come to is not its entry times D; names the position.
    AtOdds(u64),
    /// A new position where as many changes are held as may be; names how many.
    Full(u64),
}

/// A refusal.
#[derive(Clone, Copy, Debug, PartialEq, Eq)]
pub struct Fault {
    pub layer: Layer,
    pub cause: Cause,
}

impl Fault {
    /// A fault of a layer.
    pub fn new(layer: Layer, cause: Cause) -> Fault {
        Fault { layer, cause }
    }

    /// The number of its cause.
    pub fn number(&self) -> u32 {
        self.cause.number()
    }
}

impl Cause {
    /// The number of the refusal.
    pub fn number(&self) -> u32 {
        match self {
            Cause::Length(_) => 1,
            Cause::Digit(_) => 2,
            Cause::Size(_) => 3,
            Cause::Counts(_) => 4,
            Cause::Unmatched(..) => 5,
            Cause::Position(_) => 6,
            Cause::Spent(_) => 7,
            Cause::AtOdds(_) => 8,
            Cause::Full(_) => 9,
        }
    }

    /// The word of the refusal.
    pub fn word(&self) -> &'static str {
        match self {
            Cause::Length(_) => "length",
            Cause::Digit(_) => "digit",
            Cause::Size(_) => "size",
            Cause::Counts(_) => "counts",
            Cause::Unmatched(..) => "unmatched",
            Cause::Position(_) => "position",
            Cause::Spent(_) => "spent",
            Cause::AtOdds(_) => "at odds",
            Cause::Full(_) => "full",
        }
    }
}

impl fmt::Display for Layer {
    fn fmt(&self, out: &mut fmt::Formatter<'_>) -> fmt::Result {
        out.write_str(match self {
            Layer::Element => "element",
            Layer::Family => "family",
            Layer::Host => "host",
            Layer::Session => "session",
        })
    }
}

impl fmt::Display for Cause {
    fn fmt(&self, out: &mut fmt::Formatter<'_>) -> fmt::Result {
        write!(out, "{} {} ", self.number(), self.word())?;
        match self {
            Cause::Unmatched(i, j) => write!(out, "{i} {j}"),
            Cause::Length(found)
            | Cause::Digit(found)
            | Cause::Size(found)
            | Cause::Counts(found)
            | Cause::Position(found)
            | Cause::Spent(found)
            | Cause::AtOdds(found)
            | Cause::Full(found) => write!(out, "{found}"),
        }
    }
}

impl fmt::Display for Fault {
    fn fmt(&self, out: &mut fmt::Formatter<'_>) -> fmt::Result {
        write!(out, "{} {}", self.cause, self.layer)
    }
}
