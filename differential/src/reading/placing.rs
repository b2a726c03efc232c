//! "Placing": `merge_mem_at` with its size test and rules 1 to 5. Rule 6 stands in `maps`.

use super::faults::Fault;
use super::report::{self, Tally};
use super::{Merged, Outcome, Refusal, Setting};
use crate::usage::{Entry, Kind, Record, Size, Usage};

/// d + b, or 9.
pub fn sum(d: u32, b: u32) -> Result<u32, Refusal> {
    d.checked_add(b).ok_or(Refusal::PastBits)
}

/// Where something at an offset ends; dynamic counts as last.
pub fn end(offset: u32, size: Size) -> Result<Size, Refusal> {
    match size {
        Size::Fixed(size) => Ok(Size::Fixed(sum(offset, size)?)),
        Size::Dynamic => Ok(Size::Dynamic),
    }
}

fn quiet(usage: Usage) -> Merged<Usage> {
    Merged { usage, report: Vec::new(), pairings: 0 }
}

fn conflicting(usage: Usage, report: Vec<u8>) -> Merged<Usage> {
    Merged { usage, report, pairings: 0 }
}

/// What came of asking a type.
enum Asked {
    Supports,
    /// A handle or a failed type ends the asking, with a conflict.
    Ends(Vec<u8>),
    No,
}

impl Setting<'_> {
    /// `merge_mem_at`: places b at offset d in a. Counts one pairing.
    pub fn place(&self, a: Usage, d: u32, b: Usage) -> Outcome<Usage> {
        if self.size_of_placing(a.size, d, b.size)? != a.size && !self.on(Fault::OutgrownKept) {
            return Err(Refusal::Outgrown);
        }
        let uncounted = b.kind == Kind::Unused && self.on(Fault::UnusedNotCounted);
        let mut placed = match self.false_merger(&a) {
            Some(outcome) => outcome?,
            None => self.place_by_rules(a, d, b)?,
        };
        if self.on(Fault::OnePairing) {
            placed.pairings = 0;
        }
        placed.pairings += u32::from(!uncounted);
        Ok(placed)
    }

    /// The false mergers that document 01 names, if one is switched on.
    fn false_merger(&self, a: &Usage) -> Option<Outcome<Usage>> {
        if self.on(Fault::AlwaysOutgrown) {
            Some(Err(Refusal::Outgrown))
        } else if self.on(Fault::AlwaysUnused) {
            Some(Ok(quiet(Usage::UNUSED)))
        } else {
            self.on(Fault::AlwaysReceiver).then(|| Ok(quiet(a.clone())))
        }
    }

    /// Dynamic if either is, else max(a, d + b).
    fn size_of_placing(&self, a: Size, d: u32, b: Size) -> Result<Size, Refusal> {
        let (Size::Fixed(a), Size::Fixed(b)) = (a, b) else { return Ok(Size::Dynamic) };
        match sum(d, b) {
            Err(_) if self.on(Fault::EightBeforeNine) => Err(Refusal::Outgrown),
            end => Ok(Size::Fixed(a.max(end?))),
        }
    }

    fn place_by_rules(&self, a: Usage, d: u32, b: Usage) -> Outcome<Usage> {
        match (a.kind, b.kind) {
            (kind, Kind::Unused) => Ok(quiet(Usage { size: a.size, kind })),
            (kind, Kind::Map(entries)) if d == 0 || self.on(Fault::Rule2AtAnyD) => {
                self.rule_2(Usage { size: a.size, kind }, d, entries)
            }
            (Kind::Unused, kind) => Ok(quiet(self.rule_3(a.size, d, Usage { size: b.size, kind }))),
            (kind @ Kind::Leaf { .. }, other) => {
                let (size, b) = (a.size, Usage { size: b.size, kind: other });
                Ok(self.rule_4(Usage { size, kind }, d, &b))
            }
            (Kind::Array { stride, element }, kind) => {
                self.rule_5(a.size, stride, *element, d, Usage { size: b.size, kind })
            }
            (Kind::Map(entries), kind) => {
                self.rule_6(a.size, entries, d, Usage { size: b.size, kind })
            }
        }
    }

    /// b map and d = 0: its entries in ascending order, each into the last result. (d is 0 unless a
    /// fault is on.)
    fn rule_2(&self, a: Usage, d: u32, mut entries: Vec<Entry>) -> Outcome<Usage> {
        if self.on(Fault::Rule2Descends) {
            entries.reverse();
        }
        let mut tally = Tally::default();
        let mut last = a;
        for Entry { offset, node } in entries {
            let placed = self.place(last, sum(d, offset)?, node)?;
            last = tally.take(placed, report::conflict(report::AT_OFFSET, &[offset]));
        }
        let report = tally.report(self.on(Fault::Rule2NoHead));
        Ok(Merged { usage: last, report, pairings: tally.pairings })
    }

    /// a Unused: b's kind, with a's size; d is dropped.
    fn rule_3(&self, size: Size, d: u32, b: Usage) -> Usage {
        if self.on(Fault::Rule3KeepsD) && d > 0 {
            return Usage { size, kind: Kind::Map(vec![Entry { offset: d, node: b }]) };
        }
        let size = if self.on(Fault::Rule3SizeOfB) { b.size } else { size };
        Usage { size, kind: b.kind }
    }

    /// a leaf: a type that supports both, strict if either root is.
    fn rule_4(&self, a: Usage, d: u32, b: &Usage) -> Merged<Usage> {
        let (ty, report) = self.type_for(&a, d, b);
        let nested = self.on(Fault::Rule4NestedStrictness) && has_strict_leaf(b);
        let of_b = b.is_strict() && !self.on(Fault::Rule4StrictnessOfB);
        let strict = a.is_strict() || of_b || nested;
        conflicting(Usage { size: a.size, kind: Kind::Leaf { strict, ty } }, report)
    }

    fn type_for(&self, a: &Usage, d: u32, b: &Usage) -> (u32, Vec<u8>) {
        let own = a.leaf_type().expect("rule 4 is for leaves");
        let c = b.leaf_type().filter(|_| d == 0 || self.on(Fault::Rule4CAtAnyD));
        if c == Some(own) {
            return (own, Vec::new());
        }
        let mut asking = vec![(own, d, b)];
        asking.extend(c.filter(|_| !self.on(Fault::Rule4OnlyAsksA)).map(|c| (c, 0, a)));
        if self.on(Fault::Rule4AsksCFirst) {
            asking.reverse();
        }
        for (ty, offset, usage) in asking {
            match self.ask(ty, offset, usage, own) {
                Asked::Supports => return (ty, Vec::new()),
                Asked::Ends(report) => return (ty, report),
                Asked::No => {}
            }
        }
        (own, report::conflict(report::TYPE, &[]))
    }

    fn ask(&self, ty: u32, offset: u32, usage: &Usage, own: u32) -> Asked {
        let record = usize::try_from(ty).ok().and_then(|ty| self.table.records.get(ty));
        match record {
            Some(Record::Handle) if self.on(Fault::Rule4HandleGoesOn) => Asked::No,
            Some(Record::Handle) => Asked::Ends(report::conflict(report::HANDLE, &[])),
            Some(Record::Failed) if self.on(Fault::Rule4FailedGoesOn) => Asked::No,
            Some(Record::Failed) => {
                let told = if self.on(Fault::Rule4FailedTellsA) { own } else { ty };
                Asked::Ends(report::conflict(report::FAILED, &[told]))
            }
            _ if self.unless_deaf(Fault::LookupNotByLeaves).supports(ty, offset, usage) => {
                Asked::Supports
            }
            _ => Asked::No,
        }
    }

    /// a array: into the element if b fits there, else element with element if the strides agree.
    fn rule_5(&self, size: Size, stride: u32, element: Usage, d: u32, b: Usage) -> Outcome<Usage> {
        let r = d % stride;
        let array =
            |element| Usage { size, kind: Kind::Array { stride, element: Box::new(element) } };
        if self.fits_element(stride, r, b.size) {
            let element = self.lengthened(element, stride);
            let joined = match r == 0 && !self.on(Fault::Rule5PlacesAtZero) {
                true => self.merge_into_element(element, b)?,
                false => self.place(element, r, b)?,
            };
            return Ok(joined.map(array));
        }
        match b.kind {
            Kind::Array { stride: other, element: b_element }
                if (stride == other || self.on(Fault::Rule5AnyStrides))
                    && (r == 0 || self.on(Fault::Rule5AnyRest)) =>
            {
                Ok(self.merge_into_element(element, *b_element)?.map(array))
            }
            kind => {
                let told = match kind {
                    Kind::Array { stride, .. } if self.on(Fault::Rule5TellsOther) => stride,
                    _ => stride,
                };
                Ok(conflicting(array(element), report::conflict(report::STRIDE, &[told])))
            }
        }
    }

    /// `merge_mem(element, b)`.
    fn merge_into_element(&self, element: Usage, b: Usage) -> Outcome<Usage> {
        match self.on(Fault::Rule5ElementSecond) {
            true => self.below().merge_mem(b, element),
            false => self.below().merge_mem(element, b),
        }
    }

    /// b is fixed and r + b ≤ stride.
    fn fits_element(&self, stride: u32, r: u32, b: Size) -> bool {
        let Size::Fixed(b) = b else { return false };
        let end = u64::from(r) + u64::from(b) + u64::from(self.on(Fault::Rule5BelowStride));
        end <= u64::from(stride)
    }

    /// The fourth slip; without it the element as it is.
    fn lengthened(&self, element: Usage, stride: u32) -> Usage {
        let short = element.size < Size::Fixed(stride);
        if short && self.on(Fault::ElementLengthened) {
            return Usage { size: Size::Fixed(stride), kind: element.kind };
        }
        element
    }
}

fn has_strict_leaf(usage: &Usage) -> bool {
    match &usage.kind {
        Kind::Unused => false,
        Kind::Leaf { strict, .. } => *strict,
        Kind::Map(entries) => entries.iter().any(|entry| has_strict_leaf(&entry.node)),
        Kind::Array { element, .. } => has_strict_leaf(element),
    }
}
