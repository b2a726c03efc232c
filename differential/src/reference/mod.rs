//! The reference: the published Rust, unchanged, behind the reading's streams and refusals.

mod panics;
// Not all of each published item is used, and its style is its own.
#[allow(dead_code, clippy::all)]
mod published;
mod stand_ins;
pub mod timing;
mod translate;
mod watch;

use crate::reading::calls::{self, Given, Rules};
use crate::reading::faults::Faults;
use crate::reading::report::at_node;
use crate::reading::{Merged, Outcome, Receiver};
use crate::side::{Answer, Call, Choices, Side};
use crate::usage::{Components, Entry, Kind, Layout, Record, Table, Top, Usage};
use stand_ins::LayoutCache;
use translate::{from_published, report_of, to_published, top_from_published, top_to_published};

#[derive(Clone, Copy, Debug, Default)]
pub struct Reference;

impl Rules for Reference {
    /// `merge_mem` takes the receiver in its midst. It is watched there, while it merges two nodes
    /// of the same sizes and kinds with contents that tell them apart.
    fn receiver(&self, choices: Choices, first: &Usage, second: &Usage) -> Receiver {
        let cache = layouts(Given { table: &marks(), choices });
        let (first, second) = (marked(first, 0), marked(second, 1));
        let seen = watch::receiver_of(|| {
            // What becomes of the merge does not matter.
            let _ = published::merge_mem(&cache, to_published(&first), to_published(&second));
        });
        let receiver = from_published(&seen.expect("merge_mem chooses a receiver"));
        // Two Unused of one size are the same in all but their place, which the Rust does not tell.
        if receiver == second { Receiver::Second } else { Receiver::First }
    }

    fn supports(&self, given: Given<'_>, ty: u32, offset: u32, usage: &Usage) -> bool {
        let cache = layouts(given);
        published::supports_usage_at_offset(cache.concrete(ty), offset, &to_published(usage))
    }

    fn place(&self, given: Given<'_>, a: Usage, d: u32, b: Usage) -> Outcome<Usage> {
        let cache = layouts(given);
        let (a, b) = (to_published(&a), to_published(&b));
        let (placed, pairings) = watch::pairings_of(|| published::merge_mem_at(&cache, a, d, b));
        let (usage, conflict) = placed?;
        Ok(Merged { usage: from_published(&usage), report: report_of(conflict), pairings })
    }

    fn merge(&self, given: Given<'_>, first: Top, second: Top) -> Outcome<Top> {
        let cache = layouts(given);
        let (first, second) = (top_to_published(&first), top_to_published(&second));
        let (merged, pairings) = watch::pairings_of(|| published::merge(&cache, first, second));
        let (usage, conflict) = merged?;
        Ok(Merged { usage: top_from_published(&usage), report: report_of(conflict), pairings })
    }

    /// A loop over `merge_mem` that keeps what is merged, conflict or not.
    fn fold(&self, given: Given<'_>, nodes: Vec<Usage>) -> Outcome<Usage> {
        let cache = layouts(given);
        let mut nodes = nodes.iter().map(to_published).enumerate();
        let (_, mut last) = nodes.next().expect("a list has at least one node");
        let mut report = Vec::new();
        let (folded, pairings) = watch::pairings_of(|| {
            for (index, next) in nodes {
                let (merged, conflict) = published::merge_mem(&cache, last, next)?;
                if conflict.is_some() {
                    report.extend(at_node(index));
                }
                report.extend(report_of(conflict));
                last = merged;
            }
            Ok(last)
        });
        Ok(Merged { usage: from_published(&folded?), report, pairings })
    }
}

/// The layouts of what a question is asked with.
fn layouts<'a>(given: Given<'_>) -> LayoutCache<'a> {
    demand_default(given.choices);
    LayoutCache::new(given.table)
}

/// The published Rust has the default choices built in, and no answer under others.
///
/// # Panics
/// If it is asked with others.
fn demand_default(choices: Choices) {
    assert!(
        Reference.knows(choices),
        "the reference has no choices, and is asked with {choices:?}"
    );
}

/// A node of the same size and kind, whose contents tell which it was.
fn marked(usage: &Usage, mark: u32) -> Usage {
    let kind = match &usage.kind {
        Kind::Unused => Kind::Unused,
        Kind::Leaf { strict, .. } => Kind::Leaf { strict: *strict, ty: mark },
        Kind::Map(_) => Kind::Map(vec![Entry { offset: mark, node: Usage::UNUSED }]),
        Kind::Array { .. } => Kind::Array { stride: mark + 1, element: Box::new(Usage::UNUSED) },
    };
    Usage { size: usage.size, kind }
}

/// The types of marked leaves.
fn marks() -> Table {
    let scalar = Layout { size: 4, dynamic_stride: 0, components: Components::Scalar };
    Table { records: vec![Record::Concrete(scalar); 2] }
}

impl Side for Reference {
    fn name(&self) -> String {
        "reference".into()
    }

    fn knows(&self, choices: Choices) -> bool {
        choices == Choices::default()
    }

    fn answer(&self, call: &Call) -> Answer {
        demand_default(call.choices);
        calls::answer(self, Faults::NONE, call)
    }
}
