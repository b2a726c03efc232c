//! "`merge_mem`" and what calls it from outside: merge and fold. And who receives.

use super::faults::{Fault, Faults};
use super::report::{self, Tally, at_node};
use super::{Merged, Outcome, Receiver, Setting};
use crate::side::{Choices, Ties};
use crate::usage::{Kind, Size, Top, Usage};
use std::cmp::Ordering;

/// The larger receives; equal sizes go by strictness; on a full tie the second receives, or the
/// first where that is chosen. The tie rule is asked here and nowhere else.
pub fn receiver(choices: Choices, first: &Usage, second: &Usage, faults: Faults) -> Receiver {
    let tie_to_first = ties_to_first(choices, faults);
    let by_strictness = match strictness(first, faults).cmp(&strictness(second, faults)) {
        order if tie_to_first && faults.on(Fault::TieTurnsStrictness) => order.reverse(),
        _ if tie_to_first && faults.on(Fault::TieAnyStrictness) => Ordering::Equal,
        order => order,
    };
    let by_size = size(first, faults).cmp(&size(second, faults));
    match by_size.then(by_strictness) {
        Ordering::Greater => Receiver::First,
        Ordering::Equal if tie_to_first => Receiver::First,
        Ordering::Equal | Ordering::Less => Receiver::Second,
    }
}

fn ties_to_first(choices: Choices, faults: Faults) -> bool {
    let asked = faults.heard_of_ties(choices, Fault::TieNeverAsked);
    asked.ties == Ties::First || faults.on(Fault::TieToFirst)
}

/// Dynamic is largest.
fn size(usage: &Usage, faults: Faults) -> Option<Size> {
    match usage.size {
        _ if faults.on(Fault::ReceiverSizeIgnored) => None,
        Size::Dynamic if faults.on(Fault::ReceiverDynamicSmallest) => None,
        size => Some(size),
    }
}

fn strictness(usage: &Usage, faults: Faults) -> u32 {
    if faults.on(Fault::ReceiverStrictnessIgnored) {
        return 0;
    }
    match usage.kind {
        Kind::Unused => 0,
        Kind::Map(_) if faults.on(Fault::ReceiverMapAboveUnused) => 1,
        Kind::Map(_) => 0,
        Kind::Array { .. } if faults.on(Fault::ReceiverArrayAboveLeaf) => 4,
        Kind::Array { .. } => 2,
        Kind::Leaf { .. } => 3,
    }
}

impl Setting<'_> {
    /// `merge_mem`: the other is placed in the receiver at 0.
    pub fn merge_mem(&self, first: Usage, second: Usage) -> Outcome<Usage> {
        match receiver(self.choices, &first, &second, self.faults) {
            Receiver::First => self.place(first, 0, second),
            Receiver::Second => self.place(second, 0, first),
        }
    }

    /// Merge: equal Opaques stay; Buffers and Memories merge; else the first, with conflict 37.
    pub fn merge(&self, first: Top, second: Top) -> Outcome<Top> {
        match (first, second) {
            (Top::Opaque(a), Top::Opaque(b)) if a == b || self.on(Fault::MergeOpaquesAlike) => {
                Ok(Merged { usage: Top::Opaque(a), report: Vec::new(), pairings: 0 })
            }
            (Top::Buffer(a), Top::Buffer(b)) => Ok(self.merge_mem(a, b)?.map(Top::Buffer)),
            (Top::Memory(a), Top::Memory(b)) => Ok(self.merge_mem(a, b)?.map(Top::Memory)),
            (first, second) => Ok(Merged {
                usage: if self.on(Fault::MergeUnlikeSecond) { second } else { first },
                report: report::conflict(report::UNLIKE, &[]),
                pairings: u32::from(self.on(Fault::MergeUnlikePairs)),
            }),
        }
    }

    /// Fold: from the first node, `merge_mem(last, next)`; it goes on after conflicts.
    pub fn fold(&self, nodes: Vec<Usage>) -> Outcome<Usage> {
        let mut nodes = nodes.into_iter().enumerate();
        let mut tally = Tally::default();
        let mut last = nodes.next().map_or(Usage::UNUSED, |(_, first)| first);
        for (index, next) in nodes {
            let told = if self.on(Fault::FoldTellsLast) { index - 1 } else { index };
            let stops = self.on(Fault::FoldStops) && !tally.conflicts.is_empty();
            if stops || (self.on(Fault::FoldCopies) && index > 1) {
                break;
            }
            let merged = match self.on(Fault::FoldNextFirst) {
                true => self.merge_mem(next, last)?,
                false => self.merge_mem(last, next)?,
            };
            last = tally.take(merged, at_node(told));
        }
        let report = tally.conflicts.concat();
        Ok(Merged { usage: last, report, pairings: tally.pairings })
    }
}
