//! The same calls to two sides, and every result compared.

use crate::generate::{Calls, Source};
use crate::notation::report_commands;
use crate::reading::Reading;
use crate::reading::faults::Faults;
use crate::reading::sound::is_sound;
use crate::reading::streams::{read_list, read_memory};
use crate::reference::Reference;
use crate::shrink::shrink;
use crate::side::{Answer, Call, CallKind, Choices, Side};
use crate::usage::Usage;
use std::fmt;

/// What kind of calls, and where their inputs come from.
#[derive(Clone, Copy, Debug, PartialEq, Eq)]
pub struct Category {
    pub kind: CallKind,
    pub source: Source,
    pub choices: Choices,
}

impl fmt::Display for Category {
    fn fmt(&self, f: &mut fmt::Formatter<'_>) -> fmt::Result {
        let Category { kind, source, choices } = self;
        write!(f, "{kind:<8} {source:<8}")?;
        match choices.number() {
            0 => Ok(()),
            number => write!(f, " choices {number}:"),
        }
    }
}

/// A call that two sides answer differently.
#[derive(Debug)]
pub struct Difference {
    pub call: Call,
    pub answers: [(String, Answer); 2],
}

impl fmt::Display for Difference {
    fn fmt(&self, f: &mut fmt::Formatter<'_>) -> fmt::Result {
        write!(f, "{}", self.call)?;
        for (name, answer) in &self.answers {
            write!(f, "\n  {name} says\n    {answer}")?;
        }
        Ok(())
    }
}

/// What the answers were, so that a run shows what it has reached.
#[derive(Clone, Debug, Default)]
pub struct Tally {
    pub calls: u64,
    /// Answers with each number, 0 to 11.
    pub numbers: [u64; 12],
    pub yes: u64,
    pub pairings: u64,
    /// Occurrences of each command of the report, 30 to 38.
    pub conflicts: [u64; 9],
    /// Calls that would be answered otherwise with the default choices.
    pub by_choices: u64,
}

impl Tally {
    pub fn add(&mut self, answer: &Answer) {
        self.calls += 1;
        if let Some(count) = self.numbers.get_mut(answer.number as usize) {
            *count += 1;
        }
        self.yes += answer.yes;
        self.pairings += answer.pairings;
        for (command, _) in report_commands(answer.conflicts()) {
            if let Some(count) = self.conflicts.get_mut(usize::from(command).wrapping_sub(0x30)) {
                *count += 1;
            }
        }
    }
}

impl fmt::Display for Tally {
    fn fmt(&self, f: &mut fmt::Formatter<'_>) -> fmt::Result {
        let counts = |from: usize, counts: &[u64], radix_16: bool| -> String {
            let met = counts.iter().enumerate().filter(|(_, count)| **count > 0);
            let word = |(index, count): (usize, &u64)| match radix_16 {
                true => format!("{:x}: {count}", from + index),
                false => format!("{}: {count}", from + index),
            };
            met.map(word).collect::<Vec<_>>().join(", ")
        };
        write!(f, "{} calls; numbers {}", self.calls, counts(0, &self.numbers, false))?;
        if self.yes > 0 {
            write!(f, "; yes {}", self.yes)?;
        }
        if self.pairings > 0 {
            write!(f, "; pairings {}", self.pairings)?;
        }
        if self.conflicts.iter().any(|count| *count > 0) {
            write!(f, "; reports {}", counts(0x30, &self.conflicts, true))?;
        }
        if self.by_choices > 0 {
            let share = 100.0 * self.by_choices as f64 / self.calls as f64;
            write!(f, "; by the choices {} ({share:.1} in 100)", self.by_choices)?;
        }
        Ok(())
    }
}

/// Longer inputs are shown as they are: shrinking a stream of a million nodes would not end.
const LONGEST_SHRUNK: usize = 100_000;

/// Puts one call to both sides.
pub fn compare_one(sides: [&dyn Side; 2], call: &Call) -> Result<Answer, Box<Difference>> {
    let [one, other] = sides.map(|side| side.answer(call));
    if one == other {
        return Ok(one);
    }
    let differs = |call: &Call| sides[0].answer(call) != sides[1].answer(call);
    let short = call.first.len() + call.second.len() < LONGEST_SHRUNK;
    let call = if short { shrink(call.clone(), differs) } else { call.clone() };
    let answers = sides.map(|side| (side.name(), side.answer(&call)));
    Err(Box::new(Difference { call, answers }))
}

/// Puts generated calls of a category to both sides: its source's share of so many.
pub fn compare(
    sides: [&dyn Side; 2],
    category: Category,
    count: usize,
    seed: u64,
) -> Result<Tally, Box<Difference>> {
    let mut tally = Tally::default();
    let Category { kind, source, choices } = category;
    let count = source.share(count);
    for call in Calls::new(kind, source, seed).with(choices).take(count) {
        let answer = compare_one(sides, &call)?;
        if kind == CallKind::Fold {
            check_promise(&call, &answer);
        }
        tally.add(&answer);
        tally.by_choices += u64::from(choices_show(&call, &answer));
    }
    Ok(tally)
}

/// Who says what is right under these choices: the Rust, or the reading where the Rust has none such.
pub fn judge(choices: Choices) -> &'static dyn Side {
    if Reference.knows(choices) { &Reference } else { &Reading::FAULTLESS }
}

/// Puts a call to those of both sides that know its choices, one at least; compared where both do.
pub fn agreed(sides: [&dyn Side; 2], call: &Call) -> Result<Answer, Box<Difference>> {
    match sides.map(|side| side.knows(call.choices)) {
        [true, true] => compare_one(sides, call),
        [one_knows, _] => Ok(sides[usize::from(!one_knows)].answer(call)),
    }
}

/// Whether the call would be answered otherwise with the default choices.
pub fn choices_show(call: &Call, answer: &Answer) -> bool {
    let default = Choices::default();
    call.choices != default && Reading::FAULTLESS.answer(&call.clone().with(default)) != *answer
}

/// Those of the call's choices that show, as a number: without one of them, and with the others, it
/// would be answered otherwise.
pub fn choices_shown(call: &Call, answer: &Answer) -> u32 {
    let all = call.choices.number();
    let made = (0..u32::BITS).map(|bit| 1 << bit).filter(|choice| all & choice != 0);
    let shows = |choice: &u32| {
        let without = call.clone().with(Choices::of(all & !choice));
        Reading::FAULTLESS.answer(&without) != *answer
    };
    made.filter(shows).sum()
}

/// What document 01 promises of a fold over sound nodes, and document 02 under all choices: never 8
/// or 9; the answer is sound, and its pairings are at most M(M − 1)/2. Whether the nodes are sound.
///
/// # Panics
/// If the promise is broken, which would be a finding about document 01 itself.
pub fn check_promise(call: &Call, answer: &Answer) -> bool {
    let nodes = read_list(&call.first, Faults::NONE).unwrap_or_default();
    if nodes.is_empty() || !nodes.iter().all(|node| is_sound(node, Faults::NONE)) {
        return false;
    }
    assert!(!matches!(answer.number, 8 | 9), "a fold of sound nodes is refused:\n{call}");
    if answer.number != 0 {
        return true;
    }
    let usage = read_memory(answer.usage(), Faults::NONE).expect("a fold writes a Memory");
    let m: usize = nodes.iter().map(Usage::nodes).sum();
    let sizes = nodes.iter().map(|node| node.size).max();
    assert!(is_sound(&usage, Faults::NONE), "a fold of sound nodes is not sound:\n{call}");
    assert_eq!(sizes, Some(usage.size), "a fold of sound nodes has another size:\n{call}");
    assert!(answer.pairings <= (m * (m - 1) / 2) as u64, "too many pairings:\n{call}");
    assert!(usage.nodes() <= m, "too many nodes:\n{call}");
    true
}
