//! The refusals: document 01's numbers, and its words for them.
//!
//! The comparison with the original Rust (`differential`) takes this very file, for the numbers and
//! names alone: so it uses nothing else of this crate, and says nothing of when a call is refused
//! but in words.

use std::error;
use std::fmt::{self, Display, Formatter};

/// A refusal of the library, with document 01's numbers and words.
#[derive(Clone, Copy, Debug, PartialEq, Eq, PartialOrd, Ord, Hash)]
pub enum Refusal {
    /// 1: under 49,152 bytes. `UsageMerger` always lends enough.
    ShortWorkArea = 1,
    /// 2: the table breaks the table rules.
    BadTable = 2,
    /// 3: the first stream or the list breaks the stream rules; of values only an empty list does.
    BadFirst = 3,
    /// 4: the second stream breaks the stream rules; no value does.
    BadSecond = 4,
    /// 5: a type number that is not in the table.
    UnknownType = 5,
    /// 6: support was asked of a handle or failed type.
    NotConcrete = 6,
    /// 7: over 512 nodes in all inputs together.
    TooManyNodes = 7,
    /// 8: the size assertion of the source's `merge_mem_at` would fail. Never for sound usages.
    Outgrown = 8,
    /// 9: a sum that the source unwraps would pass 4,294,967,295. Never for sound usages.
    PastBits = 9,
    /// 10: the usage is longer than the output. `UsageMerger` enlarges it.
    OutputShort = 10,
    /// 11: the report is longer than its buffer. `UsageMerger` enlarges it.
    ReportShort = 11,
}

impl Refusal {
    /// All refusals, in the order in which they are tested.
    pub const ALL: [Refusal; 11] = [
        Refusal::ShortWorkArea,
        Refusal::BadTable,
        Refusal::BadFirst,
        Refusal::BadSecond,
        Refusal::UnknownType,
        Refusal::NotConcrete,
        Refusal::TooManyNodes,
        Refusal::Outgrown,
        Refusal::PastBits,
        Refusal::OutputShort,
        Refusal::ReportShort,
    ];

    /// The refusal with this number, if there is one.
    pub fn of(number: u64) -> Option<Refusal> {
        Refusal::ALL.into_iter().find(|refusal| refusal.number() == number)
    }

    /// The refusal's number.
    pub fn number(self) -> u64 {
        self as u64
    }

    /// Document 01's word for it.
    pub fn word(self) -> &'static str {
        match self {
            Refusal::ShortWorkArea => "short work area",
            Refusal::BadTable => "bad table",
            Refusal::BadFirst => "bad first",
            Refusal::BadSecond => "bad second",
            Refusal::UnknownType => "unknown type",
            Refusal::NotConcrete => "not concrete",
            Refusal::TooManyNodes => "too many nodes",
            Refusal::Outgrown => "outgrown",
            Refusal::PastBits => "past 32 bits",
            Refusal::OutputShort => "output short",
            Refusal::ReportShort => "report short",
        }
    }

    /// When it is said, in a few words.
    pub fn when(self) -> &'static str {
        match self {
            Refusal::ShortWorkArea => "under 49,152 bytes",
            Refusal::BadTable => "it breaks the table rules",
            Refusal::BadFirst => "the first stream or list breaks the stream rules",
            Refusal::BadSecond => "the second stream breaks the stream rules",
            Refusal::UnknownType => "a type number that is not in the table",
            Refusal::NotConcrete => "support asked of a handle or failed type",
            Refusal::TooManyNodes => "over 512 in all inputs together",
            Refusal::Outgrown => {
                "the receiving usage would have to grow, where the Rust's size assertion fails"
            }
            Refusal::PastBits => "a checked sum that the Rust unwraps exceeds 4,294,967,295",
            Refusal::OutputShort => "what is written is longer than the buffer for it",
            Refusal::ReportShort => "the report is longer than its buffer",
        }
    }
}

impl Display for Refusal {
    fn fmt(&self, f: &mut Formatter<'_>) -> fmt::Result {
        write!(f, "refusal {}, {}: {}", self.number(), self.word(), self.when())
    }
}

impl error::Error for Refusal {}
