//! "What a call gives back": the refusals in order, then the answer.
//!
//! Everything here speaks of bytes, limits and buffers. What is asked of usages stands behind
//! [`Rules`], so that the reference and the reading share this half and differ in the other.

use super::faults::{Fault, Faults};
use super::sound::is_sound;
use super::streams::{read_list, read_memory, read_top, write_memory, write_top};
use super::tables::read_table;
use super::{Merged, Outcome, Receiver, Refusal};
use crate::side::{Answer, Buffer, Call, CallKind, Choices, Lookup, Ties};
use crate::usage::{Table, Top, Usage};

/// The work area that every call but receiver asks for.
pub const WORK_AREA: usize = 49_152;

/// The most commands 00 to 04 in all inputs together.
pub const MOST_NODES: usize = 512;

/// What the rules are asked with.
#[derive(Clone, Copy)]
pub struct Given<'a> {
    pub table: &'a Table,
    pub choices: Choices,
}

/// The half of the calls that the published Rust has too.
pub trait Rules {
    fn receiver(&self, choices: Choices, first: &Usage, second: &Usage) -> Receiver;
    fn supports(&self, given: Given<'_>, ty: u32, offset: u32, usage: &Usage) -> bool;
    fn place(&self, given: Given<'_>, a: Usage, d: u32, b: Usage) -> Outcome<Usage>;
    fn merge(&self, given: Given<'_>, first: Top, second: Top) -> Outcome<Top>;
    fn fold(&self, given: Given<'_>, nodes: Vec<Usage>) -> Outcome<Usage>;
}

/// Answers a call with these rules.
pub fn answer(rules: &impl Rules, faults: Faults, call: &Call) -> Answer {
    let desk = Desk { faults, call };
    match call.kind {
        CallKind::Receiver => Answer { number: desk.receiver(rules), ..Answer::default() },
        CallKind::Supports | CallKind::Sound => verdict(desk.asked(rules)),
        CallKind::Place | CallKind::Merge | CallKind::Fold => desk.written(desk.merged(rules)),
    }
}

/// The streams of a call, read.
enum Inputs {
    One(Usage),
    Two(Usage, Usage),
    Tops(Top, Top),
    List(Vec<Usage>),
}

impl Inputs {
    /// The nodes of each input.
    fn nodes(&self) -> Vec<usize> {
        let of_top = |top: &Top| top.node().map_or(0, Usage::nodes);
        match self {
            Inputs::One(usage) => vec![usage.nodes()],
            Inputs::Two(first, second) => vec![first.nodes(), second.nodes()],
            Inputs::Tops(first, second) => vec![of_top(first), of_top(second)],
            Inputs::List(nodes) => vec![nodes.iter().map(Usage::nodes).sum()],
        }
    }

    /// The largest type number named, an Opaque's included.
    fn largest_type(&self, faults: Faults) -> Option<u32> {
        let of_top = |top: &Top| match top {
            Top::Opaque(_) if faults.on(Fault::CallOpaqueType) => None,
            top => top.largest_type(),
        };
        match self {
            Inputs::One(usage) => usage.largest_type(),
            Inputs::Two(first, second) => first.largest_type().max(second.largest_type()),
            Inputs::Tops(first, second) => of_top(first).max(of_top(second)),
            Inputs::List(nodes) => nodes.iter().filter_map(Usage::largest_type).max(),
        }
    }
}

/// A yes or no; no if refused.
fn verdict(asked: Result<bool, Refusal>) -> Answer {
    match asked {
        Ok(yes) => Answer { yes: u64::from(yes), ..Answer::default() },
        Err(refusal) => Answer { number: refusal.number(), ..Answer::default() },
    }
}

/// One call at hand.
struct Desk<'a> {
    faults: Faults,
    call: &'a Call,
}

impl Desk<'_> {
    fn on(&self, fault: Fault) -> bool {
        self.faults.on(fault)
    }

    /// The choices that the rules are asked with: the call's, but for a fault.
    fn choices(&self) -> Choices {
        let (ties, lookup) = match self.call.kind {
            CallKind::Receiver => (Some(Fault::TieNotByReceiver), None),
            CallKind::Supports => (None, Some(Fault::LookupNotBySupports)),
            CallKind::Place => (Some(Fault::TieNotByPlace), Some(Fault::LookupNotByPlace)),
            CallKind::Merge => (Some(Fault::TieNotByMerge), Some(Fault::LookupNotByMerge)),
            CallKind::Fold => (Some(Fault::TieNotByFold), Some(Fault::LookupNotByFold)),
            CallKind::Sound => (None, None),
        };
        let choices = self.combined();
        let choices = ties.map_or(choices, |deaf| self.faults.heard_of_ties(choices, deaf));
        lookup.map_or(choices, |deaf| self.faults.heard_of_lookup(choices, deaf))
    }

    /// All of the call's choices, but for a fault that takes one for another, or loses one where
    /// another is made.
    fn combined(&self) -> Choices {
        let choices = self.call.choices;
        match (choices.ties, choices.lookup) {
            (Ties::First, Lookup::Strict) => {
                let choices = self.faults.heard_of_ties(choices, Fault::TieNotIfStrict);
                self.faults.heard_of_lookup(choices, Fault::LookupNotIfFirst)
            }
            (Ties::First, _) | (_, Lookup::Strict) if self.on(Fault::ChoicesExchanged) => {
                Choices::of(choices.number() ^ 3)
            }
            _ => choices,
        }
    }

    fn given<'t>(&self, table: &'t Table) -> Given<'t> {
        Given { table, choices: self.choices() }
    }

    /// The receiving stream, or an empty part exactly where 3, 4 or 7 would be met.
    fn receiver(&self, rules: &impl Rules) -> u64 {
        let Ok(inputs) = self.streams() else { return 0 };
        match &inputs {
            _ if self.on(Fault::ReceiverAlwaysEmpty) || self.too_many(&inputs) => 0,
            Inputs::Two(first, second) => rules.receiver(self.choices(), first, second) as u64,
            _ => unreachable!("receiver takes two streams"),
        }
    }

    fn asked(&self, rules: &impl Rules) -> Result<bool, Refusal> {
        let (table, inputs) = self.admitted()?;
        let Inputs::One(usage) = inputs else { unreachable!("these calls take one stream") };
        Ok(match self.call.kind {
            CallKind::Sound => is_sound(&usage, self.faults),
            _ => rules.supports(self.given(&table), self.call.ty, self.call.offset, &usage),
        })
    }

    /// The merge run to its end: 10 and 11 come after.
    fn merged(&self, rules: &impl Rules) -> Outcome<Vec<u8>> {
        let (table, inputs) = self.admitted()?;
        let given = self.given(&table);
        match inputs {
            Inputs::Two(first, second) => {
                let placed = rules.place(given, first, self.call.offset, second)?;
                Ok(placed.map(|usage| write_memory(&usage)))
            }
            Inputs::Tops(first, second) => {
                Ok(rules.merge(given, first, second)?.map(|top| write_top(&top)))
            }
            Inputs::List(nodes) => Ok(rules.fold(given, nodes)?.map(|usage| write_memory(&usage))),
            Inputs::One(_) => unreachable!("merging calls take more than one usage"),
        }
    }

    /// Refusals 1 to 7, in this order.
    fn admitted(&self) -> Result<(Table, Inputs), Refusal> {
        let work = self.call.work + usize::from(self.on(Fault::CallWork));
        if work < WORK_AREA {
            return Err(Refusal::ShortWorkArea);
        }
        let table = read_table(&self.call.table, self.faults).ok_or(Refusal::BadTable)?;
        if self.on(Fault::CallTypesFirst) && self.first_names_unknown(&table) {
            return Err(Refusal::UnknownType);
        }
        let inputs = self.streams()?;
        let concrete = self.call.kind != CallKind::Supports
            || table.concrete(self.call.ty).is_some()
            || (self.on(Fault::CallAskedType) && !table.has(self.call.ty));
        if !concrete && self.on(Fault::CallConcreteFirst) {
            return Err(Refusal::NotConcrete);
        }
        if self.names_unknown(&table, &inputs) {
            return Err(Refusal::UnknownType);
        }
        if !concrete && !self.on(Fault::CallConcreteLate) {
            return Err(Refusal::NotConcrete);
        }
        if self.too_many(&inputs) {
            return Err(Refusal::TooManyNodes);
        }
        if !concrete {
            return Err(Refusal::NotConcrete);
        }
        Ok((table, inputs))
    }

    /// Refusals 3 and 4.
    fn streams(&self) -> Result<Inputs, Refusal> {
        let (first, second) = (&self.call.first, &self.call.second);
        if self.on(Fault::CallSecondFirst) && self.call.kind.takes_second() {
            read_top(second, self.faults).ok_or(Refusal::BadSecond)?;
        }
        let memory = |bytes: &[u8]| read_memory(bytes, self.faults);
        match self.call.kind {
            CallKind::Supports | CallKind::Sound => {
                Ok(Inputs::One(memory(first).ok_or(Refusal::BadFirst)?))
            }
            CallKind::Receiver | CallKind::Place => {
                let first = memory(first).ok_or(Refusal::BadFirst)?;
                Ok(Inputs::Two(first, memory(second).ok_or(Refusal::BadSecond)?))
            }
            CallKind::Merge => {
                let first = read_top(first, self.faults).ok_or(Refusal::BadFirst)?;
                let second = read_top(second, self.faults).ok_or(Refusal::BadSecond)?;
                Ok(Inputs::Tops(first, second))
            }
            CallKind::Fold => {
                Ok(Inputs::List(read_list(first, self.faults).ok_or(Refusal::BadFirst)?))
            }
        }
    }

    /// Refusal 5: a type number of the streams, or the asked one, that is not in the table.
    fn names_unknown(&self, table: &Table, inputs: &Inputs) -> bool {
        let asked = self.call.kind == CallKind::Supports && !self.on(Fault::CallAskedType);
        let unknown = |ty| !table.has(ty);
        inputs.largest_type(self.faults).is_some_and(unknown) || (asked && unknown(self.call.ty))
    }

    /// For the fault that tells 5 too early.
    fn first_names_unknown(&self, table: &Table) -> bool {
        let first = read_top(&self.call.first, self.faults);
        first.and_then(|top| top.largest_type()).is_some_and(|ty| !table.has(ty))
    }

    /// Refusal 7: in all inputs together.
    fn too_many(&self, inputs: &Inputs) -> bool {
        let nodes = inputs.nodes();
        let most = MOST_NODES + usize::from(self.on(Fault::CallLimit));
        if self.on(Fault::CallLimitEach) {
            return nodes.into_iter().any(|nodes| nodes > most);
        }
        let tops = if self.on(Fault::CallTopsCount) { nodes.len() } else { 0 };
        nodes.into_iter().sum::<usize>() + tops > most
    }

    /// Refusals 8 to 11, and what becomes of the two buffers.
    fn written(&self, merged: Outcome<Vec<u8>>) -> Answer {
        let Call { output, report, .. } = *self.call;
        let cleared = |buffer: Buffer, fault| if self.on(fault) { buffer } else { buffer.zeroed() };
        match self.fitting(merged) {
            Ok(Merged { usage, report: conflicts, pairings }) => {
                let kept = if self.on(Fault::CallOutputCleared) { output.zeroed() } else { output };
                let rest = cleared(report, Fault::CallReportRest);
                Answer {
                    usage_length: usage.len() as u64,
                    report_length: conflicts.len() as u64,
                    pairings: u64::from(pairings),
                    output: kept.overwritten(&usage).expect("10 was tested"),
                    report: rest.overwritten(&conflicts).expect("11 was tested"),
                    ..Answer::default()
                }
            }
            Err((refusal, pairings)) => Answer {
                number: refusal.number(),
                pairings: u64::from(pairings),
                output: output.bytes(),
                report: cleared(report, Fault::CallReportKept).bytes(),
                ..Answer::default()
            },
        }
    }

    /// Refusals 10 and 11, after 8 and 9. The number beside a refusal is 0 unless a fault is on.
    fn fitting(&self, merged: Outcome<Vec<u8>>) -> Result<Merged<Vec<u8>>, (Refusal, u32)> {
        let (output, report) = (self.call.output.length, self.call.report.length);
        let merged = match merged {
            Err(Refusal::Outgrown | Refusal::PastBits)
                if self.on(Fault::CallOutputFirst) && output < self.call.first.len() =>
            {
                return Err((Refusal::OutputShort, 0));
            }
            merged => merged.map_err(|refusal| (refusal, 0))?,
        };
        let told = if self.on(Fault::CallPairingsKept) { merged.pairings } else { 0 };
        let needed = merged.usage.len() + usize::from(self.on(Fault::CallOutputExact));
        let short_report = merged.report.len() > report;
        if short_report && self.on(Fault::CallReportFirst) {
            return Err((Refusal::ReportShort, told));
        }
        if needed > output {
            return Err((Refusal::OutputShort, told));
        }
        if short_report {
            return Err((Refusal::ReportShort, told));
        }
        Ok(merged)
    }
}
