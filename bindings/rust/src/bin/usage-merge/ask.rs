//! What is asked, and the library's answer to it.

use crate::lookup::{FoundBy, found_by};
use usage_merger::{
    Choices, Conflict, Error, Lookup, MergeResult, QPtrMemUsage, QPtrUsage, Receiver, Table, Ties,
    UsageMerger,
};

/// What the command line asks for.
pub struct Question {
    pub table: Table,
    pub choices: Choices,
    /// One at least. All are memories unless two are merged.
    pub usages: Vec<QPtrUsage>,
    /// Where the second is placed, if it is.
    pub at: Option<u32>,
}

/// All that is shown.
pub struct Answer {
    pub result: MergeResult<QPtrUsage>,
    /// Whether each usage is sound. A handle has nothing that could be unsound.
    pub sound: Vec<bool>,
    pub result_sound: bool,
    /// Of two usages that are merged: which receives. Nothing is merged where they are handles, or
    /// a handle and a memory.
    pub received: Option<Received>,
    /// What the lenient lookup comes to, where the strict one finds more.
    pub lenient: Option<Lenient>,
}

/// The lenient lookup's answer beside the strict one's. The usage and the pairings are the same.
pub struct Lenient {
    /// How many conflicts it finds.
    pub conflicts: usize,
    /// Of each conflict of the strict lookup, whether it finds it.
    pub found_by: Vec<FoundBy>,
}

/// Which of two usages receives, and whether the tie rule decided it.
#[derive(Clone, Copy)]
pub struct Received {
    pub receiver: Receiver,
    pub tied: bool,
}

impl Question {
    /// Whether this is the call that takes handles, too.
    pub fn merges_tops(&self) -> bool {
        self.usages.len() == 2 && self.at.is_none()
    }

    /// The nodes of all usages.
    pub fn nodes(&self) -> usize {
        self.usages.iter().map(QPtrUsage::nodes).sum()
    }

    pub fn ask(&self) -> Result<Answer, Error> {
        let mut merger = UsageMerger::new(&self.table)?.with_choices(self.choices);
        let result = self.merged(&mut merger)?;
        let sound = self.sound(&mut merger)?;
        let result_sound = is_sound(&mut merger, &result.merged)?;
        let received = match (&self.usages[..], self.at) {
            ([first, second], None) => received(&merger, first, second)?,
            _ => None,
        };
        let lenient = self.lenient(&merger, &result.conflicts)?;
        Ok(Answer { result, sound, result_sound, received, lenient })
    }

    /// Asks by the lenient lookup, too, if the strict one is chosen. Reports alone can differ, and not
    /// what is refused, the usage or the pairings: that is proved of the definitions (`LookupReports`).
    fn lenient(&self, merger: &UsageMerger, strict: &[Conflict]) -> Result<Option<Lenient>, Error> {
        if self.choices.lookup == Lookup::Lenient {
            return Ok(None);
        }
        let choices = self.choices.with_lookup(Lookup::Lenient);
        let lenient = self.merged(&mut merger.clone().with_choices(choices))?.conflicts;
        let differ = lenient != strict;
        Ok(differ
            .then(|| Lenient { conflicts: lenient.len(), found_by: found_by(strict, &lenient) }))
    }

    fn merged(&self, merger: &mut UsageMerger) -> Result<MergeResult<QPtrUsage>, Error> {
        match (&self.usages[..], self.at) {
            ([first, second], None) => merger.merge(first, second),
            ([QPtrUsage::Memory(first), QPtrUsage::Memory(second)], Some(offset)) => {
                Ok(merger.merge_mem_at(first, offset, second)?.map(QPtrUsage::Memory))
            }
            (usages, _) => {
                let memories = usages.iter().filter_map(QPtrUsage::mem);
                Ok(merger.fold(memories)?.map(QPtrUsage::Memory))
            }
        }
    }

    /// Whether each usage is sound.
    pub fn sound(&self, merger: &mut UsageMerger) -> Result<Vec<bool>, Error> {
        self.usages.iter().map(|usage| is_sound(merger, usage)).collect()
    }
}

fn is_sound(merger: &mut UsageMerger, usage: &QPtrUsage) -> Result<bool, Error> {
    usage.mem().map_or(Ok(true), |memory: &QPtrMemUsage| merger.is_sound(memory))
}

/// Who receives, of two buffers or two memories.
fn received(
    merger: &UsageMerger,
    first: &QPtrUsage,
    second: &QPtrUsage,
) -> Result<Option<Received>, Error> {
    let alike = matches!(first, QPtrUsage::Memory(_)) == matches!(second, QPtrUsage::Memory(_));
    let (Some(first), Some(second), true) = (first.mem(), second.mem(), alike) else {
        return Ok(None);
    };
    let receiver = merger.receiver(first, second)?;
    // It is a tie if the other rule has the other receive.
    let choices = merger.choices();
    let other = if choices.ties == Ties::First { Ties::Second } else { Ties::First };
    let otherwise = merger.clone().with_choices(choices.with_ties(other));
    let tied = otherwise.receiver(first, second)? != receiver;
    Ok(Some(Received { receiver, tied }))
}

/// What a usage is called, by its place in the command line.
pub fn name(index: usize) -> String {
    match index {
        0 => "first".into(),
        1 => "second".into(),
        2 => "third".into(),
        index => ordinal(index.saturating_add(1)),
    }
}

fn ordinal(number: usize) -> String {
    let ending = match (number % 100, number % 10) {
        (11..=13, _) => "th",
        (_, 1) => "st",
        (_, 2) => "nd",
        (_, 3) => "rd",
        _ => "th",
    };
    format!("{number}{ending}")
}
