//! What can be wrong, as values.

use crate::refusal::Refusal;
use std::error;
use std::fmt::{self, Display, Formatter};

/// Why [`UsageMerger`](crate::UsageMerger) gave no answer.
///
/// ```
/// use usage_merger::{Error, Refusal};
/// assert_eq!(Refusal::of(8), Some(Refusal::Outgrown));
/// assert_eq!(Refusal::Outgrown.word(), "outgrown");
/// assert_eq!(Refusal::of(0), None);
/// let words = "refusal 7, too many nodes: over 512 in all inputs together";
/// assert_eq!(Error::Refused(Refusal::TooManyNodes).to_string(), words);
/// ```
#[derive(Clone, Copy, Debug, PartialEq, Eq, Hash)]
pub enum Error {
    /// The library refused.
    Refused(Refusal),
    /// A value has no bytes, so that the library could not be asked.
    Value(ValueError),
    /// The library's answer is none that document 01 has: what is linked is another library.
    Foreign,
}

impl Error {
    /// The refusal, if it is one.
    pub fn refusal(self) -> Option<Refusal> {
        match self {
            Error::Refused(refusal) => Some(refusal),
            Error::Value(_) | Error::Foreign => None,
        }
    }
}

impl Display for Error {
    fn fmt(&self, f: &mut Formatter<'_>) -> fmt::Result {
        match self {
            Error::Refused(refusal) => refusal.fmt(f),
            Error::Value(error) => error.fmt(f),
            Error::Foreign => f.write_str("the linked library's answer is none that is defined"),
        }
    }
}

impl error::Error for Error {}

impl From<Refusal> for Error {
    fn from(refusal: Refusal) -> Error {
        Error::Refused(refusal)
    }
}

impl From<ValueError> for Error {
    fn from(error: ValueError) -> Error {
        Error::Value(error)
    }
}

/// Why a value has no bytes: a count of two bytes goes to 65,535. Tells how many there are.
#[derive(Clone, Copy, Debug, PartialEq, Eq, Hash)]
pub enum ValueError {
    /// A map with more entries.
    Entries(usize),
    /// A list with more nodes; no more of it was looked at.
    Nodes(usize),
    /// A table with more records.
    Records(usize),
    /// A struct with more fields.
    Fields(usize),
}

impl Display for ValueError {
    fn fmt(&self, f: &mut Formatter<'_>) -> fmt::Result {
        let (what, count) = match self {
            ValueError::Entries(count) => ("entries of a map", count),
            ValueError::Nodes(count) => ("nodes of a list", count),
            ValueError::Records(count) => ("records of a table", count),
            ValueError::Fields(count) => ("fields of a record", count),
        };
        write!(f, "{count} {what}, and a count goes to 65,535")
    }
}

impl error::Error for ValueError {}

/// Why bytes are not the stream, table or report that they should be, and where.
#[derive(Clone, Copy, Debug, PartialEq, Eq, Hash)]
pub struct BytesError {
    /// The byte, counted from 0.
    pub position: usize,
    /// What is wrong there.
    pub fault: ByteFault,
}

/// What can be wrong with bytes.
#[derive(Clone, Copy, Debug, PartialEq, Eq, Hash)]
pub enum ByteFault {
    /// They end too early.
    EarlyEnd,
    /// More bytes follow.
    LeftOver,
    /// A command that does not belong here.
    Command(u8),
    /// A size's flag that is neither 0 nor 1.
    Flag(u8),
    /// A dynamic size with a number.
    DynamicNumber(u32),
    /// An offset that is not above the one before it.
    Offset(u32),
    /// A stride of 0.
    Stride,
    /// A list of no nodes.
    EmptyList,
    /// More than 512 levels; no accepted usage has them, since 512 nodes are the most.
    TooDeep,
}

impl Display for BytesError {
    fn fmt(&self, f: &mut Formatter<'_>) -> fmt::Result {
        write!(f, "byte {}: ", self.position)?;
        match self.fault {
            ByteFault::EarlyEnd => f.write_str("the bytes end too early"),
            ByteFault::LeftOver => f.write_str("bytes are left over"),
            ByteFault::Command(command) => write!(f, "no command {command:02x} is awaited here"),
            ByteFault::Flag(flag) => write!(f, "a size's flag is 0 or 1, not {flag}"),
            ByteFault::DynamicNumber(number) => write!(f, "a dynamic size has no number {number}"),
            ByteFault::Offset(offset) => {
                write!(f, "the offset {offset} is not above the one before it")
            }
            ByteFault::Stride => f.write_str("a stride is not 0"),
            ByteFault::EmptyList => f.write_str("a list has a node at least"),
            ByteFault::TooDeep => f.write_str("over 512 levels"),
        }
    }
}

impl error::Error for BytesError {}
