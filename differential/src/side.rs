//! The six calls, bytes to bytes: what goes in, what comes back, and who answers.

use std::fmt;
use std::str::FromStr;

#[path = "../../bindings/rust/src/choices.rs"]
mod choices;

pub use choices::{Choices, Lookup, Ties};

/// All choices that there are, the default first: the numbers up to the first that has a bit no
/// choice has.
pub fn all_choices() -> Vec<Choices> {
    (0..).map_while(choices_numbered).collect()
}

/// The choices with this number; `None` if it has a bit that no choice has.
pub fn choices_numbered(number: u32) -> Option<Choices> {
    Some(Choices::of(number)).filter(|choices| choices.number() == number)
}

/// Which of the six calls. The discriminant is the byte of the recorded file.
#[derive(Clone, Copy, Debug, PartialEq, Eq)]
pub enum CallKind {
    Receiver = 0,
    Supports = 1,
    Place = 2,
    Merge = 3,
    Fold = 4,
    Sound = 5,
}

impl CallKind {
    pub const ALL: [CallKind; 6] = [
        CallKind::Receiver,
        CallKind::Supports,
        CallKind::Place,
        CallKind::Merge,
        CallKind::Fold,
        CallKind::Sound,
    ];

    pub fn name(self) -> &'static str {
        match self {
            CallKind::Receiver => "receiver",
            CallKind::Supports => "supports",
            CallKind::Place => "place",
            CallKind::Merge => "merge",
            CallKind::Fold => "fold",
            CallKind::Sound => "sound",
        }
    }

    /// Place, merge and fold write an output and a report; the others write nothing.
    pub fn writes(self) -> bool {
        matches!(self, CallKind::Place | CallKind::Merge | CallKind::Fold)
    }

    pub fn takes_second(self) -> bool {
        matches!(self, CallKind::Receiver | CallKind::Place | CallKind::Merge)
    }

    /// Soundness alone is not a matter of choice.
    pub fn takes_choices(self) -> bool {
        self != CallKind::Sound
    }

    /// Whether a call can be made with these choices. One that takes none is made with the default.
    pub fn takes(self, choices: Choices) -> bool {
        self.takes_choices() || choices == Choices::default()
    }
}

impl fmt::Display for CallKind {
    fn fmt(&self, f: &mut fmt::Formatter<'_>) -> fmt::Result {
        f.write_str(self.name())
    }
}

impl FromStr for CallKind {
    type Err = String;

    fn from_str(name: &str) -> Result<Self, String> {
        let found = CallKind::ALL.into_iter().find(|kind| kind.name() == name);
        found.ok_or_else(|| format!("no call is named `{name}`"))
    }
}

/// A buffer before a call: so many bytes, all alike.
#[derive(Clone, Copy, Debug, PartialEq, Eq)]
pub struct Buffer {
    pub length: usize,
    pub fill: u8,
}

impl Buffer {
    /// A buffer that a call does not have.
    pub const NONE: Buffer = Buffer { length: 0, fill: 0 };

    pub fn bytes(self) -> Vec<u8> {
        vec![self.fill; self.length]
    }

    /// A buffer of the same length, all zeros.
    pub fn zeroed(self) -> Buffer {
        Buffer { fill: 0, ..self }
    }

    /// New bytes from the start, and the rest as it was; `None` if they do not fit.
    pub fn overwritten(self, new: &[u8]) -> Option<Vec<u8>> {
        let mut bytes = self.bytes();
        bytes.get_mut(..new.len())?.copy_from_slice(new);
        Some(bytes)
    }
}

/// All that goes into a call. Parts that a kind of call does not take are empty or 0.
#[derive(Clone, Debug, PartialEq, Eq)]
pub struct Call {
    pub kind: CallKind,
    pub choices: Choices,
    pub table: Vec<u8>,
    pub work: usize,
    pub ty: u32,
    pub offset: u32,
    pub first: Vec<u8>,
    pub second: Vec<u8>,
    pub output: Buffer,
    pub report: Buffer,
}

impl Call {
    /// The same call with these choices, if it takes any.
    pub fn with(self, choices: Choices) -> Call {
        let choices = if self.kind.takes(choices) { choices } else { Choices::default() };
        Call { choices, ..self }
    }
}

/// All that a call gives back. For receiver the number is 0 for an empty part, 1 for the first
/// stream and 2 for the second, and all else is 0.
#[derive(Clone, Debug, Default, PartialEq, Eq)]
pub struct Answer {
    pub number: u64,
    pub yes: u64,
    pub usage_length: u64,
    pub report_length: u64,
    pub pairings: u64,
    /// The whole output buffer afterwards.
    pub output: Vec<u8>,
    /// The whole report buffer afterwards.
    pub report: Vec<u8>,
}

impl Answer {
    /// The bytes of the output that belong to the answer.
    pub fn usage(&self) -> &[u8] {
        front(&self.output, self.usage_length)
    }

    /// The bytes of the report that belong to the answer.
    pub fn conflicts(&self) -> &[u8] {
        front(&self.report, self.report_length)
    }
}

/// The first `length` bytes, or all if a faulty side claims more.
fn front(bytes: &[u8], length: u64) -> &[u8] {
    let length = usize::try_from(length).unwrap_or(usize::MAX);
    &bytes[..length.min(bytes.len())]
}

/// Somebody who answers calls.
pub trait Side {
    fn name(&self) -> String;

    /// Whether it can be asked with these choices.
    fn knows(&self, _choices: Choices) -> bool {
        true
    }

    fn answer(&self, call: &Call) -> Answer;
}
