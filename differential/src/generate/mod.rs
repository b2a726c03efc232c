//! Generated calls: seeded and repeatable.

mod brink;
mod damage;
mod large;
#[path = "../../../bindings/rust/tests/random/rng.rs"]
mod rng;
mod tables;
mod usages;

pub use rng::Rng;

use crate::reading::Reading;
use crate::reading::calls::WORK_AREA;
use crate::reading::faults::Faults;
use crate::reading::sound::is_sound;
use crate::reading::streams::{LIST, MEMORY, write_list, write_memory, write_top};
use crate::reading::tables::write_table;
use crate::side::{Buffer, Call, CallKind, Choices, Side, all_choices};
use crate::usage::{Size, Table, Top, Usage};
use std::cmp::Reverse;
use std::fmt;
use usages::Maker;

/// Where a call's inputs come from.
#[derive(Clone, Copy, Debug, PartialEq, Eq)]
pub enum Source {
    /// Accepted tables and sound usages.
    Sound,
    /// Accepted tables and well-formed usages, at least one of them not sound.
    Unsound,
    /// About 512 nodes.
    Large,
    /// Nested deeper than any stack.
    Deep,
    /// Any of these, with damaged bytes.
    Damaged,
    /// Accepted tables and sound usages that tie wherever they meet.
    Tied,
    /// Accepted tables and usages that stand where an array ends, most of them sound.
    Brink,
}

impl Source {
    pub const ALL: [Source; 7] = [
        Source::Sound,
        Source::Unsound,
        Source::Large,
        Source::Deep,
        Source::Damaged,
        Source::Tied,
        Source::Brink,
    ];

    /// Where calls with these choices come from if nothing is said: what choices show in is sought
    /// where something is chosen.
    pub fn of(choices: Choices) -> Vec<Source> {
        let seeks = |source: &Source| matches!(source, Source::Tied | Source::Brink);
        let sought = |source: &Source| !seeks(source) || choices != Choices::default();
        Source::ALL.into_iter().filter(sought).collect()
    }

    /// How many calls a run of so many makes from this source: fewer where each one takes long.
    pub fn share(self, count: usize) -> usize {
        match self {
            Source::Sound | Source::Unsound | Source::Damaged | Source::Tied | Source::Brink => {
                count
            }
            Source::Large => count.div_ceil(100),
            Source::Deep => count.div_ceil(50_000),
        }
    }
}

impl fmt::Display for Source {
    fn fmt(&self, f: &mut fmt::Formatter<'_>) -> fmt::Result {
        f.pad(match self {
            Source::Sound => "sound",
            Source::Unsound => "unsound",
            Source::Large => "large",
            Source::Deep => "deep",
            Source::Damaged => "damaged",
            Source::Tied => "tied",
            Source::Brink => "brink",
        })
    }
}

/// Makes one call after another.
pub struct Calls {
    rng: Rng,
    kind: CallKind,
    source: Source,
    choices: Choices,
}

impl Calls {
    /// Calls with the default choices.
    pub fn new(kind: CallKind, source: Source, seed: u64) -> Calls {
        // Each category draws from numbers of its own.
        let category = (kind as u64) << 8 | source as u64;
        let choices = Choices::default();
        Calls { rng: Rng::new(seed ^ category << 32), kind, source, choices }
    }

    /// The same inputs with these choices, if the calls take any.
    pub fn with(self, choices: Choices) -> Calls {
        Calls { choices, ..self }
    }

    /// The calls, every third of them with other choices than the default, each of those in turn.
    pub fn by_turns(self) -> impl Iterator<Item = Call> {
        let others = all_choices().split_off(1);
        self.enumerate().map(move |(index, call)| match index % 3 {
            2 => call.with(others[index / 3 % others.len()]),
            _ => call,
        })
    }

    fn call(&mut self) -> Call {
        let mut call = match self.source {
            Source::Sound | Source::Tied => self.small(true),
            Source::Unsound => self.small(false),
            Source::Large => self.large(),
            Source::Deep => self.deep(),
            Source::Brink => self.brink(),
            Source::Damaged => match self.rng.below(40) {
                0 => self.large(),
                choice => self.small(choice % 2 == 0),
            },
        };
        if self.source == Source::Damaged {
            damage::damage(&mut self.rng, &mut call);
        }
        let mut call = call.with(self.choices);
        self.set_lengths(&mut call);
        call
    }

    fn small(&mut self, sound: bool) -> Call {
        let high = self.rng.one_in(5);
        let table = tables::table(&mut self.rng, high);
        let count = match self.kind {
            CallKind::Supports | CallKind::Sound => 1,
            CallKind::Fold => 1 + self.rng.below(5),
            CallKind::Receiver | CallKind::Place | CallKind::Merge => 2,
        };
        let mut maker = Maker { rng: &mut self.rng, table: &table, high };
        let mut usages = vec![if sound { maker.sound() } else { maker.any() }];
        while usages.len() < count {
            let next = match maker.rng.below(4) {
                _ if self.source == Source::Tied => maker.rival(&usages[0]),
                0 | 1 => maker.kin(&usages[0]),
                _ if sound => maker.sound(),
                _ => maker.any(),
            };
            usages.push(next);
        }
        if !sound && usages.iter().all(|usage| is_sound(usage, Faults::NONE)) {
            let index = maker.rng.below(count);
            usages[index] = maker.unsound();
        }
        // What is placed mostly fits, or else 8 would be nearly all that is heard.
        if self.kind == CallKind::Place && !self.rng.one_in(8) {
            usages.sort_by_key(|usage| Reverse(usage.size));
        }
        self.of_usages(&table, usages, high)
    }

    fn large(&mut self) -> Call {
        let table = large::table();
        let rng = &mut self.rng;
        let nodes = large::nodes(rng);
        let split = 1 + rng.below(nodes - 1);
        let usages = match self.kind {
            CallKind::Supports | CallKind::Sound => vec![large::usage(rng, nodes)],
            CallKind::Fold if rng.one_in(3) => (0..nodes).map(|_| large::usage(rng, 1)).collect(),
            _ => vec![large::usage(rng, split), large::usage(rng, nodes - split)],
        };
        self.of_usages(&table, usages, false)
    }

    /// One of the inputs is deep, or both are.
    fn deep(&mut self) -> Call {
        let mut call = self.small(true);
        let top: &[u8] = if self.kind == CallKind::Fold { &[LIST, 1, 0] } else { &[MEMORY] };
        let second = self.kind.takes_second() && self.rng.one_in(2);
        if second {
            call.second = large::deep_stream(&mut self.rng, top);
        }
        if !second || self.rng.one_in(2) {
            call.first = large::deep_stream(&mut self.rng, top);
        }
        call
    }

    /// A usage that has an array's end in it, and another that stands there.
    fn brink(&mut self) -> Call {
        let sound = self.rng.one_in(2);
        let dynamic = sound || self.rng.one_in(2);
        let table = tables::with_lengths(&mut self.rng, dynamic);
        let mut maker = Maker { rng: &mut self.rng, table: &table, high: false };
        let brink = maker.brink(sound);
        let (ty, offset, usages) = match self.kind {
            CallKind::Supports => {
                let (offset, usage) = maker.standing(&brink);
                (brink.ty, offset, vec![usage])
            }
            CallKind::Place => {
                let brink = maker.deeper(brink);
                let (offset, b) = maker.standing(&brink);
                (0, offset, vec![brink.holder, b])
            }
            CallKind::Sound => (0, 0, vec![maker.standing(&brink).1]),
            CallKind::Receiver | CallKind::Merge => (0, 0, maker.pair(brink)),
            CallKind::Fold => (0, 0, maker.several(brink)),
        };
        Call { ty, offset, ..self.of_usages(&table, usages, false) }
    }

    /// The call that takes these usages.
    fn of_usages(&mut self, table: &Table, usages: Vec<Usage>, high: bool) -> Call {
        let table_bytes =
            if self.kind == CallKind::Receiver { Vec::new() } else { write_table(table) };
        let (first, second) = match self.kind {
            CallKind::Fold => (write_list(&usages), Vec::new()),
            CallKind::Merge => self.tops(table, &usages),
            _ => {
                let mut streams = usages.iter().map(write_memory);
                (streams.next().unwrap_or_default(), streams.next().unwrap_or_default())
            }
        };
        let ty = match self.kind {
            CallKind::Supports => self.asked_type(table),
            _ => 0,
        };
        let offset = match (self.kind, &usages[..]) {
            (CallKind::Supports, _) => self.offset(high),
            (CallKind::Place, [a, b]) => self.offset_within(a.size, b.size, high),
            _ => 0,
        };
        let buffer = Buffer::NONE;
        Call {
            kind: self.kind,
            choices: Choices::default(),
            table: table_bytes,
            work: 0,
            ty,
            offset,
            first,
            second,
            output: buffer,
            report: buffer,
        }
    }

    /// Mostly two Memories; sometimes Buffers, Opaques, or two that are unlike.
    fn tops(&mut self, table: &Table, usages: &[Usage]) -> (Vec<u8>, Vec<u8>) {
        let rng = &mut self.rng;
        let unlike = rng.one_in(30);
        let both = rng.below(20);
        let most = table.records.len() + usize::from(rng.one_in(20));
        let mut stream = |usage: &Usage| {
            let choice = if unlike { rng.below(3) } else { both };
            write_top(&match choice {
                0 => Top::Opaque(rng.below(most.max(1)) as u32),
                1 | 2 => Top::Buffer(usage.clone()),
                _ => Top::Memory(usage.clone()),
            })
        };
        let mut streams = usages.iter().map(&mut stream);
        (streams.next().unwrap_or_default(), streams.next().unwrap_or_default())
    }

    /// Mostly a concrete type, if the table has one.
    fn asked_type(&mut self, table: &Table) -> u32 {
        let concrete: Vec<u32> =
            tables::types(table).filter(|&ty| table.concrete(ty).is_some()).collect();
        match self.rng.below(40) {
            0 => self.rng.below(table.records.len() + 2) as u32,
            _ if concrete.is_empty() => 0,
            _ => self.rng.pick(&concrete),
        }
    }

    /// Mostly an offset at which b still lies within a.
    fn offset_within(&mut self, a: Size, b: Size, high: bool) -> u32 {
        let offset = self.offset(high);
        match (a, b) {
            (Size::Fixed(a), Size::Fixed(b)) if b <= a && !self.rng.one_in(8) => offset.min(a - b),
            _ => offset,
        }
    }

    fn offset(&mut self, high: bool) -> u32 {
        match self.rng.below(if high { 8 } else { 6 }) {
            0 | 1 => 0,
            2..=4 => 4 * self.rng.below(6) as u32,
            5 => self.rng.below(24) as u32,
            _ => u32::MAX - self.rng.pick(&[0, 1, 3, 4, 7, 8, 11, 15]),
        }
    }

    /// Lengths that suffice, most of the time; else too short ones, or ones that are just enough.
    fn set_lengths(&mut self, call: &mut Call) {
        if call.kind == CallKind::Receiver {
            return;
        }
        let rng = &mut self.rng;
        call.work = match rng.below(100) {
            0 => rng.pick(&[0, 1, WORK_AREA - 1, WORK_AREA - 2]),
            1 => WORK_AREA + 1 + rng.below(8),
            _ => WORK_AREA,
        };
        if !call.kind.writes() {
            return;
        }
        let ample = call.first.len() + call.second.len() + 16;
        call.output = Buffer { length: ample, fill: rng.pick(&[0, 0xff, 0xa5]) };
        call.report = Buffer { length: 64 + ample, fill: rng.pick(&[0, 0xff, 0x5a]) };
        match rng.below(32) {
            0 => call.output.length = rng.below(ample + 1),
            1 => call.report.length = rng.below(16),
            2 => {
                let answer = Reading::FAULTLESS.answer(call);
                call.output.length = (answer.usage_length as usize).saturating_sub(rng.below(2));
                call.report.length = (answer.report_length as usize).saturating_sub(rng.below(2));
            }
            _ => {}
        }
    }
}

/// The calls never end.
impl Iterator for Calls {
    type Item = Call;

    fn next(&mut self) -> Option<Call> {
        Some(self.call())
    }
}
