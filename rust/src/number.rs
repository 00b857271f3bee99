//! The numbers given back.

use crate::error::Error;
use std::error;
use std::fmt;

/// The call that gave a number back.
#[derive(Debug, Clone, Copy, PartialEq, Eq)]
#[non_exhaustive]
pub enum Call {
    /// Building the store of a draft.
    Build,
    /// Admitting a store.
    Admit,
    /// Planning a pattern.
    Plan,
    /// Listing the matches of a pattern.
    List,
}

/// Why a call was refused.
#[derive(Debug, Clone, Copy, PartialEq, Eq)]
#[non_exhaustive]
#[repr(u32)]
pub enum Number {
    /// Header, count limit, offset or length wrong; building only: also g or e not 0.
    Header = 1,
    /// A node or edge record breaks its rule.
    Record = 2,
    /// A constraint breaks its rule.
    Constraint = 3,
    /// A list of the graph exceeds its N.
    LongList = 4,
    /// Admitting: index differs from the one built, or building would answer 11; listing: a list
    /// read is unfit.
    Unfit = 5,
    /// Pattern breaks its rules.
    Pattern = 6,
    /// A pattern node or edge is not covered.
    Uncovered = 7,
    /// T above 65,536.
    Bound = 8,
    /// Working room below 2T words.
    Work = 9,
    /// Room for result too short.
    Room = 10,
    /// Built index needs too many groups or entries.
    Index = 11,
}

impl Number {
    const ALL: [Number; 11] = [
        Number::Header,
        Number::Record,
        Number::Constraint,
        Number::LongList,
        Number::Unfit,
        Number::Pattern,
        Number::Uncovered,
        Number::Bound,
        Number::Work,
        Number::Room,
        Number::Index,
    ];
}

/// A number other than 0, from this call. Every other result was 0, the result room is unchanged.
#[derive(Debug, Clone, Copy, PartialEq, Eq)]
pub struct Refusal {
    /// The call that was refused.
    pub call: Call,
    /// Why.
    pub number: Number,
}

impl Refusal {
    /// What the number says when this call gives it back.
    pub fn sentence(&self) -> &'static str {
        match (self.call, self.number) {
            (Call::Build, Number::Header) => {
                "header, count limit, offset or length wrong; also g or e not 0"
            }
            (_, Number::Header) => "header, count limit, offset or length wrong",
            (_, Number::Record) => "a node or edge record breaks its rule",
            (_, Number::Constraint) => "a constraint breaks its rule",
            (_, Number::LongList) => "a list of the graph exceeds its N",
            (Call::Admit, Number::Unfit) => {
                "index differs from the one built, or building would answer 11"
            }
            (_, Number::Unfit) => "a list read is unfit",
            (_, Number::Pattern) => "pattern breaks its rules",
            (_, Number::Uncovered) => "a pattern node or edge is not covered",
            (_, Number::Bound) => "T above 65,536",
            (_, Number::Work) => "working room below 2T words",
            (_, Number::Room) => "room for result too short",
            (_, Number::Index) => "built index needs too many groups or entries",
        }
    }
}

impl fmt::Display for Refusal {
    fn fmt(&self, f: &mut fmt::Formatter<'_>) -> fmt::Result {
        write!(f, "refused with {}: {}", self.number as u32, self.sentence())
    }
}

impl error::Error for Refusal {}

/// Nothing for 0, else the refusal.
pub(crate) fn checked(call: Call, number: u32) -> Result<(), Error> {
    if number == 0 {
        return Ok(());
    }
    let known = Number::ALL.into_iter().find(|&known| known as u32 == number);
    Err(known.map_or(Error::Unknown(number), |number| Refusal { call, number }.into()))
}

#[cfg(test)]
mod tests {
    use super::*;

    #[test]
    fn every_number_is_known_and_no_other() {
        assert_eq!(checked(Call::List, 0), Ok(()));
        for (place, number) in Number::ALL.into_iter().enumerate() {
            assert_eq!(number as usize, place + 1);
            let refusal = Refusal { call: Call::List, number };
            assert_eq!(checked(Call::List, number as u32), Err(Error::Refused(refusal)));
        }
        assert_eq!(checked(Call::List, 12), Err(Error::Unknown(12)));
    }
}
