//! The power check: a comparison is worth what it notices.

use crate::generate::{Calls, Source};
use crate::reading::Reading;
use crate::reading::faults::Fault;
use crate::record::Recorded;
use crate::side::{CallKind, Side};

/// How often a fault was noticed.
pub struct Noticed {
    pub fault: Fault,
    /// Of the recorded calls.
    pub recorded: usize,
    /// Of the generated calls.
    pub generated: usize,
}

/// Generated calls of every category with the answers of who judges them.
pub fn generated(each: usize, seed: u64) -> Vec<Recorded> {
    let mut list = Vec::new();
    for kind in CallKind::ALL {
        for source in Source::ALL.into_iter().filter(|source| *source != Source::Deep) {
            let calls = Calls::new(kind, source, seed).by_turns().take(source.share(each));
            list.extend(calls.map(Recorded::judged));
        }
    }
    list
}

/// Switches on each fault in turn and counts the calls whose answer changes.
pub fn power(recorded: &[Recorded], generated: &[Recorded]) -> Vec<Noticed> {
    let noticed = |side: &Reading, list: &[Recorded]| {
        list.iter().filter(|recorded| side.answer(&recorded.call) != recorded.answer).count()
    };
    let of = |&fault: &Fault| {
        let side = Reading::with(fault);
        Noticed { fault, recorded: noticed(&side, recorded), generated: noticed(&side, generated) }
    };
    Fault::ALL.iter().map(of).collect()
}
