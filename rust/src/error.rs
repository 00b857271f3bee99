//! What a call may give in place of an answer.

use crate::number::{Number, Refusal};
use std::error;
use std::fmt;

/// Why there is no answer.
#[derive(Debug, Clone, Copy, PartialEq, Eq)]
#[non_exhaustive]
pub enum Error {
    /// The library refused: a number other than 0.
    Refused(Refusal),
    /// Records that no bytes can hold; nothing was called.
    Wrong(Wrong),
    /// Too little stack is left, and no thread with so many bytes can be started; nothing was called.
    Stack(usize),
    /// There is no memory for a room of so many bytes.
    Memory(usize),
    /// The library gave back a number that is not known here: it is another, or a newer one.
    Unknown(u32),
}

impl Error {
    /// The number that the library refused with, if it did.
    pub fn number(&self) -> Option<Number> {
        match self {
            Error::Refused(refusal) => Some(refusal.number),
            _ => None,
        }
    }
}

/// Records that no bytes can hold.
#[derive(Debug, Clone, Copy, PartialEq, Eq)]
#[non_exhaustive]
pub enum Wrong {
    /// The constraint in this place has more than three key labels.
    KeyLabels(usize),
    /// The pattern node in this place has more than two conditions.
    Conditions(usize),
    /// A condition is for the pattern node in this place, and there is none.
    NoNode(usize),
    /// There are so many records that 32 bits cannot count their bytes.
    Records,
}

impl fmt::Display for Wrong {
    fn fmt(&self, f: &mut fmt::Formatter<'_>) -> fmt::Result {
        match self {
            Wrong::KeyLabels(place) => {
                write!(f, "constraint {place} has more than three key labels")
            }
            Wrong::Conditions(place) => {
                write!(f, "pattern node {place} has more than two conditions")
            }
            Wrong::NoNode(place) => write!(f, "there is no pattern node {place}"),
            Wrong::Records => write!(f, "there are too many records"),
        }
    }
}

impl error::Error for Wrong {}

impl fmt::Display for Error {
    fn fmt(&self, f: &mut fmt::Formatter<'_>) -> fmt::Result {
        match self {
            Error::Refused(refusal) => refusal.fmt(f),
            Error::Wrong(wrong) => wrong.fmt(f),
            Error::Stack(bytes) => {
                write!(f, "no thread with {bytes} bytes of stack can be started")
            }
            Error::Memory(bytes) => write!(f, "there is no memory for a room of {bytes} bytes"),
            Error::Unknown(number) => {
                write!(f, "the library gave back {number}, which is not known")
            }
        }
    }
}

impl error::Error for Error {}

impl From<Refusal> for Error {
    fn from(refusal: Refusal) -> Error {
        Error::Refused(refusal)
    }
}

impl From<Wrong> for Error {
    fn from(wrong: Wrong) -> Error {
        Error::Wrong(wrong)
    }
}
