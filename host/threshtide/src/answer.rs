//! The library's answers: 0 for yes, or a number for the reason for no (docs/INTERFACE.md).

use crate::Word;
use std::error::Error;
use std::fmt;

/// Why a call was refused. A refused call changes nothing.
#[derive(Clone, Copy, Debug, PartialEq, Eq, Hash)]
pub enum No {
    /// No. 1: lent state or upload position of the wrong size or failing its test.
    State,
    /// No. 2: a setup beyond the sizes, or an instance twice.
    Setup,
    /// No. 3: a time above 2^63 - 1.
    Time,
    /// No. 4: bytes of an open, a close, a path or a request that do not parse, or exceed the sizes.
    Parse,
    /// No. 6: no assembly of that instance and kind.
    Assembly,
    /// No. 7: more bytes than the input assembly has.
    TooLong,
    /// No. 8: lent output shorter than the answer.
    Room,
    /// No. 9: no event waiting, no deadline, or no connection of that triad.
    Nothing,
}

impl No {
    /// Its number (docs/INTERFACE.md).
    pub fn number(self) -> u8 {
        match self {
            No::State => 1,
            No::Setup => 2,
            No::Time => 3,
            No::Parse => 4,
            No::Assembly => 6,
            No::TooLong => 7,
            No::Room => 8,
            No::Nothing => 9,
        }
    }

    /// Its meaning.
    pub fn meaning(self) -> &'static str {
        match self {
            No::State => "state or upload position of the wrong size or failing its test",
            No::Setup => "setup beyond the sizes, or an instance twice",
            No::Time => "time above 2^63 - 1",
            No::Parse => "bytes that do not parse or exceed the sizes",
            No::Assembly => "no assembly of that instance and kind",
            No::TooLong => "more bytes than the assembly has",
            No::Room => "lent output shorter than the answer",
            No::Nothing => "no event waiting, no deadline, or no connection of that triad",
        }
    }

    fn of(number: u8) -> Option<No> {
        [No::State, No::Setup, No::Time, No::Parse, No::Assembly, No::TooLong, No::Room, No::Nothing]
            .into_iter()
            .find(|no| no.number() == number)
    }
}

impl fmt::Display for No {
    fn fmt(&self, f: &mut fmt::Formatter<'_>) -> fmt::Result {
        write!(f, "no. {}: {}", self.number(), self.meaning())
    }
}

impl Error for No {}

/// An open that failed one of its thirteen checks (docs/RULES.md, chapter 6).
///
/// [`general`](Refusal::general) and [`words`](Refusal::words) go into the reply to the originator, with the bytes of
/// [`open_refusal`](crate::open_refusal) as its data.
#[derive(Clone, Copy, Debug, PartialEq, Eq, Hash)]
pub struct Refusal {
    /// The general status: 0x01, connection failure.
    pub general: u8,
    /// The first extended status word.
    pub word: Word,
    /// The second: after 0x0109, the size that fits.
    pub size: Option<u16>,
}

impl Refusal {
    /// The one or two extended status words.
    pub fn words(&self) -> impl Iterator<Item = u16> {
        [Some(self.word.0), self.size].into_iter().flatten()
    }
}

impl fmt::Display for Refusal {
    fn fmt(&self, f: &mut fmt::Formatter<'_>) -> fmt::Result {
        write!(f, "{}", self.word)?;
        match self.size {
            Some(size) => write!(f, " (fits: {size})"),
            None => Ok(()),
        }
    }
}

impl Error for Refusal {}

/// Why an open was not accepted.
#[derive(Clone, Copy, Debug, PartialEq, Eq, Hash)]
pub enum OpenError {
    /// The call was refused before or after the checks.
    No(No),
    /// No. 5: a check failed.
    Refused(Refusal),
}

impl fmt::Display for OpenError {
    fn fmt(&self, f: &mut fmt::Formatter<'_>) -> fmt::Result {
        match self {
            OpenError::No(no) => no.fmt(f),
            OpenError::Refused(refusal) => refusal.fmt(f),
        }
    }
}

impl Error for OpenError {}

impl From<No> for OpenError {
    fn from(no: No) -> Self {
        OpenError::No(no)
    }
}

/// The value of a yes, or the reason for no, of a call that has no No. 5.
pub(crate) fn read(answer: u64) -> Result<u64, No> {
    match answer as u8 {
        0 => Ok(answer >> 8),
        n => Err(No::of(n).unwrap_or_else(|| not_in_the_contract(answer))),
    }
}

/// The answer to an open, as it is: a yes has its value in bits 8 and up.
pub(crate) fn read_open(answer: u64) -> Result<u64, OpenError> {
    if answer as u8 != 5 {
        return Ok(read(answer)?);
    }
    Err(OpenError::Refused(Refusal {
        general: (answer >> 8) as u8,
        word: Word((answer >> 32) as u16),
        size: ((answer >> 16) as u8 == 2).then_some((answer >> 48) as u16),
    }))
}

/// An answer that the library's contract excludes.
pub(crate) fn not_in_the_contract(answer: u64) -> ! {
    panic!("the library answered {answer:#X}, which its contract excludes")
}
