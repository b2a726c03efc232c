//! Rule 6 of placing: a is a map.

use super::faults::Fault;
use super::placing::end;
use super::report::{self, Tally};
use super::{Merged, Outcome, Refusal, Setting};
use crate::usage::{Entry, Kind, Size, Usage};
use std::ops::Range;

impl Setting<'_> {
    /// a map: b is joined with each entry that it overlaps, downwards, and then inserted.
    pub fn rule_6(&self, size: Size, mut entries: Vec<Entry>, d: u32, b: Usage) -> Outcome<Usage> {
        let overlapping = self.overlapping(&entries, d, b.size)?;
        let mut tally = Tally::default();
        let mut joined = Entry { offset: d, node: b };
        for turn in 0..overlapping.len() {
            let index = match self.on(Fault::Rule6Upwards) {
                true => overlapping.start,
                false => overlapping.end - 1 - turn,
            };
            let entry = entries.remove(index);
            if self.straddles(&entry, &joined)? {
                return Ok(self.straddled(size, entries, entry, joined, d, tally));
            }
            joined = self.join(entry, joined, &mut tally)?;
        }
        insert(&mut entries, joined, self.on(Fault::Rule6InsertKeepsOld));
        let usage = Usage { size, kind: Kind::Map(entries) };
        Ok(Merged { usage, report: tally.report(false), pairings: tally.pairings })
    }

    /// From the highest offset below d + b downwards, while an entry is dynamic or ends past d. The
    /// sums give 9 as they are made: the one of the entry that stops the search too, and none below.
    fn overlapping(&self, entries: &[Entry], d: u32, b: Size) -> Result<Range<usize>, Refusal> {
        let top = match end(d, b) {
            Err(_) if self.on(Fault::Rule6NewSumSaturates) => Size::Fixed(u32::MAX),
            top => top?,
        };
        let last = entries.partition_point(|entry| Size::Fixed(entry.offset) < top);
        if self.on(Fault::Rule6SearchSumsAll) {
            entries[..last].iter().try_for_each(|e| end(e.offset, e.node.size).map(drop))?;
        }
        let mut first = last;
        while first > 0 {
            let entry = &entries[first - 1];
            let entry_end = match end(entry.offset, entry.node.size) {
                Err(_) if self.on(Fault::Rule6EndSaturates) => Size::Fixed(u32::MAX),
                entry_end => entry_end?,
            };
            let touches = self.on(Fault::EndAtDOverlaps) && entry_end == Size::Fixed(d);
            if entry_end <= Size::Fixed(d) && !touches {
                break;
            }
            first -= 1;
        }
        Ok(first..last)
    }

    /// Unless starts are equal, the lower must end no earlier than the other.
    fn straddles(&self, entry: &Entry, b: &Entry) -> Result<bool, Refusal> {
        if entry.offset == b.offset && !self.on(Fault::Rule6EqualStartStraddles) {
            return Ok(false);
        }
        let (lower, other) = if entry.offset < b.offset { (entry, b) } else { (b, entry) };
        if self.on(Fault::Rule6DynamicEndsFirst) && lower.node.size == Size::Dynamic {
            return Ok(true);
        }
        let lower_end = self.capped_end(lower)?;
        let other_end = self.capped_end(other)?;
        let dynamics = lower_end == Size::Dynamic && other_end == Size::Dynamic;
        Ok(lower_end < other_end || (dynamics && self.on(Fault::Rule6TwoDynamicsStraddle)))
    }

    /// The search has summed both ends before, so that this one never newly refuses.
    fn capped_end(&self, entry: &Entry) -> Result<Size, Refusal> {
        let capped = self.on(Fault::Rule6EndSaturates) || self.on(Fault::Rule6NewSumSaturates);
        match end(entry.offset, entry.node.size) {
            Err(_) if capped => Ok(Size::Fixed(u32::MAX)),
            end => end,
        }
    }

    /// Stops: that entry and all collected before it are gone, b is not inserted, and of the report
    /// only 36 remains. Pairings made before still count.
    fn straddled(
        &self,
        size: Size,
        mut entries: Vec<Entry>,
        entry: Entry,
        b: Entry,
        d: u32,
        tally: Tally,
    ) -> Merged<Usage> {
        let told = if self.on(Fault::Rule6StraddleTellsFirstD) { d } else { b.offset };
        let straddle = report::conflict(report::STRADDLE, &[entry.offset, told]);
        if self.on(Fault::StraddleInserts) {
            insert(&mut entries, b, false);
        }
        if self.on(Fault::Rule6StraddleKeepsEntry) {
            insert(&mut entries, entry, false);
        }
        let earlier = match self.on(Fault::Rule6StraddleKeepsReport) {
            true => tally.report(false),
            false => Vec::new(),
        };
        let dropped = self.on(Fault::Rule6StraddleDropsPairings);
        Merged {
            usage: Usage { size, kind: Kind::Map(entries) },
            report: [earlier, straddle].concat(),
            pairings: if dropped { 0 } else { tally.pairings },
        }
    }

    /// The lower-starting side receives; equal starts use `merge_mem(b, entry)`. The result stands
    /// at the lower start.
    fn join(&self, entry: Entry, b: Entry, tally: &mut Tally) -> Result<Entry, Refusal> {
        let keeps_start = self.on(Fault::Rule6KeepsStart);
        let told = if self.on(Fault::Rule6TellsNewOffset) { b.offset } else { entry.offset };
        let head = report::conflict(report::AT_OFFSET, &[told]);
        let lower = if keeps_start { b.offset } else { entry.offset.min(b.offset) };
        let swapped = self.on(Fault::Rule6EqualStartSwapped);
        let joined = if entry.offset < b.offset {
            self.place(entry.node, b.offset - entry.offset, b.node)?
        } else if entry.offset > b.offset || self.on(Fault::Rule6EqualStartPlaces) {
            self.place(b.node, entry.offset - b.offset, entry.node)?
        } else if swapped {
            self.below().merge_mem(entry.node, b.node)?
        } else {
            self.below().merge_mem(b.node, entry.node)?
        };
        Ok(Entry { offset: lower, node: tally.take(joined, head) })
    }
}

/// Inserts at the offset, replacing what stands there (unless the fault says that the old stays).
fn insert(entries: &mut Vec<Entry>, new: Entry, keeps_old: bool) {
    match entries.binary_search_by_key(&new.offset, |entry| entry.offset) {
        Ok(_) if keeps_old => {}
        Ok(index) => entries[index] = new,
        Err(index) => entries.insert(index, new),
    }
}
