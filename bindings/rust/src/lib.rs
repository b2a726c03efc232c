//! SPIR-T's `UsageMerger` over a library that is proved to do what its definitions say.
//!
//! A usage says how memory is used through a pointer ("four bytes of type 0 at offset 4", "an array
//! of stride 16 whose element is ..."). Merging brings two usages, or a list of them, into one, and
//! tells the conflicts.
//!
//! ```
//! use usage_merger::{QPtrMemUsage, Table, UsageMerger};
//!
//! let mut merger = UsageMerger::new(&Table::bench())?;
//! let (a, b): (QPtrMemUsage, QPtrMemUsage) = ("O8[0:D4,1]".parse()?, "D8,2".parse()?);
//! let answer = merger.merge_mem(&a, &b)?;
//! assert_eq!(answer.merged.to_string(), "D8,2");
//! let words = "entry at 0: no type here supports the other usage; the receiver's type is kept";
//! assert_eq!(answer.conflicts[0].to_string(), words);
//! # Ok::<(), Box<dyn std::error::Error>>(())
//! ```
//!
//! Calls do what the source does, unless [`Choices`] say otherwise. On a tie of size and strictness
//! the second usage receives; or the first, where that is chosen. Two entries of maps at one offset are
//! merged the other way round, the one that is put in before the one that is there:
//!
//! ```
//! # use usage_merger::{Choices, QPtrMemUsage, Table, Ties, UsageMerger};
//! let merger = UsageMerger::new(&Table::bench())?;
//! let mut merger = merger.with_choices(Choices::default().with_ties(Ties::First));
//! let mut merged = |a: &str, b: &str| -> Result<String, Box<dyn std::error::Error>> {
//!     let (a, b): (QPtrMemUsage, QPtrMemUsage) = (a.parse()?, b.parse()?);
//!     Ok(merger.merge_mem(&a, &b)?.merged.to_string())
//! };
//! assert_eq!(merged("D4,0", "D4,1")?, "D4,0");
//! assert_eq!(merged("A8,4,D4,0", "A8,4,D4,1")?, "A8,4,D4,0");
//! assert_eq!(merged("O8[0:D4,0]", "O8[0:D4,1]")?, "O8[0:D4,1]");
//! # Ok::<(), Box<dyn std::error::Error>>(())
//! ```
//!
//! One past its last element an array type contains an element of size 0; or nothing, for drivers that
//! refuse pointers there, where the strict lookup is chosen:
//!
//! ```
//! # use usage_merger::{Choices, Conflict, Lookup, QPtrMemUsage, Table, UsageMerger};
//! let lenient = UsageMerger::new(&Table::bench())?;
//! let strict = lenient.clone().with_choices(Choices::default().with_lookup(Lookup::Strict));
//! let (past, array): (QPtrMemUsage, QPtrMemUsage) = ("O16[16:D0,0]".parse()?, "D16,3".parse()?);
//! let conflicts = |mut merger: UsageMerger| -> Result<Vec<Conflict>, usage_merger::Error> {
//!     let answer = merger.merge_mem(&past, &array)?;
//!     assert_eq!(answer.merged, array);
//!     Ok(answer.conflicts)
//! };
//! assert!(conflicts(lenient)?.is_empty());
//! let words = "entry at 16: no type here supports the other usage; the receiver's type is kept";
//! assert_eq!(conflicts(strict)?[0].to_string(), words);
//! # Ok::<(), Box<dyn std::error::Error>>(())
//! ```
//!
//! Types have the source's names; what is different is said where it is. Tables and usages are
//! values; [`notation`] has a short way to write them. Wherever something can be wrong there is an
//! [`Error`]: the library's refusals, with their numbers and words, among them. No function panics.
//!
//! The proofs are about the library, from bytes to bytes. This crate turns values into bytes and
//! back, and is tested, not proved.

#![deny(missing_docs, unsafe_code)]
#![forbid(unsafe_op_in_unsafe_fn)]

mod bytes;
#[allow(unsafe_code)]
pub mod calls;
mod choices;
mod conflict;
mod display;
mod error;
mod merger;
pub mod notation;
mod refusal;
mod streams;
mod table;
mod usage;

pub use choices::{Choices, Lookup, Ties};
pub use conflict::{Conflict, ConflictKind};
pub use error::{ByteFault, BytesError, Error, ValueError};
pub use merger::{MergeResult, Receiver, UsageMerger};
pub use notation::NotationError;
pub use refusal::Refusal;
pub use streams::{list_from_bytes, list_to_bytes};
pub use table::{Components, Field, MemTypeLayout, Table, TypeLayout};
pub use usage::{QPtrMemUsage, QPtrMemUsageKind, QPtrUsage, Type, shapes};
