//! An independent reading of document 01: written from its sentences, in its order and words. What a
//! choice changes of them is document 02's.
//!
//! It is the judge of what the published Rust does not have (streams, tables, refusals 1 to 7, 10
//! and 11, soundness, all choices but the default), and is itself judged by the Rust in all else.

pub mod bytes;
pub mod calls;
pub mod faults;
mod maps;
mod merging;
mod placing;
#[path = "../../../bindings/rust/src/refusal.rs"]
mod refusal;
pub mod report;
pub mod sound;
pub mod streams;
mod support;
pub mod tables;

use crate::side::{Answer, Call, Choices, Side};
use crate::usage::{Table, Top, Usage};
use calls::{Given, Rules};
use faults::{Fault, Faults};
pub use refusal::Refusal;

/// What a merge comes to: the usage, the report's bytes and the pairings.
#[derive(Clone, Debug, PartialEq, Eq)]
pub struct Merged<T> {
    pub usage: T,
    pub report: Vec<u8>,
    pub pairings: u32,
}

impl<T> Merged<T> {
    pub fn map<U>(self, change: impl FnOnce(T) -> U) -> Merged<U> {
        Merged { usage: change(self.usage), report: self.report, pairings: self.pairings }
    }
}

/// A merge, or refusal 8 or 9.
pub type Outcome<T> = Result<Merged<T>, Refusal>;

/// Which of two nodes receives the other.
#[derive(Clone, Copy, Debug, PartialEq, Eq)]
pub enum Receiver {
    First = 1,
    Second = 2,
}

/// What rules are read with: the table, the choices, and the fault that is switched on.
#[derive(Clone, Copy)]
pub struct Setting<'a> {
    pub table: &'a Table,
    pub choices: Choices,
    pub faults: Faults,
}

impl Setting<'_> {
    fn on(&self, fault: Fault) -> bool {
        self.faults.on(fault)
    }

    /// The setting of what is merged below the root: the same, but for a fault.
    fn below(&self) -> Self {
        let choices = self.faults.heard_of_ties(self.choices, Fault::TieAtRootAlone);
        Setting { choices, ..*self }
    }

    /// The same, but for a fault that keeps the lookup from being heard.
    fn unless_deaf(&self, deaf: Fault) -> Self {
        let choices = self.faults.heard_of_lookup(self.choices, deaf);
        Setting { choices, ..*self }
    }
}

/// The reading as a side of the comparison.
#[derive(Clone, Copy, Debug)]
pub struct Reading {
    pub faults: Faults,
}

impl Reading {
    /// The reading as it is meant.
    pub const FAULTLESS: Reading = Reading { faults: Faults::NONE };

    /// The reading with one fault switched on.
    pub fn with(fault: Fault) -> Reading {
        Reading { faults: Faults::only(fault) }
    }

    fn setting<'a>(&self, Given { table, choices }: Given<'a>) -> Setting<'a> {
        Setting { table, choices, faults: self.faults }
    }
}

impl Rules for Reading {
    fn receiver(&self, choices: Choices, first: &Usage, second: &Usage) -> Receiver {
        merging::receiver(choices, first, second, self.faults)
    }

    fn supports(&self, given: Given<'_>, ty: u32, offset: u32, usage: &Usage) -> bool {
        self.setting(given).supports(ty, offset, usage)
    }

    fn place(&self, given: Given<'_>, a: Usage, d: u32, b: Usage) -> Outcome<Usage> {
        self.setting(given).place(a, d, b)
    }

    fn merge(&self, given: Given<'_>, first: Top, second: Top) -> Outcome<Top> {
        self.setting(given).merge(first, second)
    }

    fn fold(&self, given: Given<'_>, nodes: Vec<Usage>) -> Outcome<Usage> {
        self.setting(given).fold(nodes)
    }
}

impl Side for Reading {
    fn name(&self) -> String {
        "reading".into()
    }

    fn answer(&self, call: &Call) -> Answer {
        calls::answer(self, self.faults, call)
    }
}
