//! A search for inputs on which the port asks most for each node and type: random ones to begin with, and small changes that keep what
//! asks more.

use super::change::change;
use super::plain::{Counted, plain};
use super::port::ours;
use super::shapes::Question;
use crate::generate::{Calls, Rng, Source};
use crate::reading::faults::Faults;
use crate::reading::sound::is_sound;
use crate::reading::streams::{read_memory, write_memory};
use crate::reading::tables::{read_table, write_table};
use crate::side::{Call, CallKind};
use crate::usage::{Components, Table};
use std::fmt::{self, Display, Formatter};
use std::time::{Duration, Instant};

/// What is searched. They are kept apart.
#[derive(Clone, Copy, Debug, PartialEq, Eq)]
pub enum Among {
    /// Sound usages over tables whose elements lie apart.
    SoundApart,
    /// Sound usages over any accepted table.
    Sound,
    /// Usages that are not sound.
    Unsound,
}

impl Among {
    pub const ALL: [Among; 3] = [Among::SoundApart, Among::Sound, Among::Unsound];

    fn words(self) -> &'static str {
        match self {
            Among::SoundApart => "sound, elements apart",
            Among::Sound => "sound, any table",
            Among::Unsound => "not sound",
        }
    }

    fn source(self) -> Source {
        if self == Among::Unsound { Source::Unsound } else { Source::Sound }
    }

    /// Whether the calls accept the question, and it is of this kind.
    pub fn has(self, question: &Question) -> bool {
        let Question { table, ty, usage, .. } = question;
        table.concrete(*ty).is_some()
            && usage.largest_type().is_none_or(|ty| table.has(ty))
            && is_sound(usage, Faults::NONE) != (self == Among::Unsound)
            && (self != Among::SoundApart || elements_apart(table))
            && read_memory(&write_memory(usage), Faults::NONE).is_some()
            && read_table(&write_table(table), Faults::NONE).is_some()
    }
}

/// Whether no element reaches past its stride: none is larger, and none is dynamic.
pub fn elements_apart(table: &Table) -> bool {
    (0..table.records.len() as u32).filter_map(|ty| table.concrete(ty)).all(|layout| {
        let Components::Elements { stride, ty, .. } = layout.components else { return true };
        table.concrete(ty).is_some_and(|elem| elem.dynamic_stride == 0 && elem.size <= stride)
    })
}

/// The most nodes, types and fields of a record.
#[derive(Clone, Copy, Debug)]
pub struct Limits {
    pub nodes: usize,
    pub types: usize,
    pub fields: usize,
}

/// Small ones first; each goes on from what the one before found.
pub const STAGES: [Limits; 4] = [
    Limits { nodes: 6, types: 6, fields: 4 },
    Limits { nodes: 12, types: 12, fields: 4 },
    Limits { nodes: 24, types: 24, fields: 8 },
    Limits { nodes: 12, types: 24, fields: 64 },
];

impl Limits {
    pub fn allow(&self, Question { table, usage, .. }: &Question) -> bool {
        let few = |ty| match table.concrete(ty).map(|layout| &layout.components) {
            Some(Components::Fields(fields)) => fields.len() <= self.fields,
            _ => true,
        };
        usage.nodes() <= self.nodes
            && table.records.len() <= self.types
            && (0..table.records.len() as u32).all(few)
    }
}

impl Display for Limits {
    fn fmt(&self, f: &mut Formatter<'_>) -> fmt::Result {
        let Limits { nodes, types, fields } = self;
        write!(f, "up to {nodes} nodes, {types} types, {fields} fields each")
    }
}

/// More questions than this count as this many.
const MOST: u64 = 1_000_000;

/// So many changes in a row without a better one end a climb.
const PATIENCE: u32 = 4_000;

/// A question, and what it asks for each node and type.
#[derive(Clone, Debug)]
struct Found {
    question: Question,
    score: f64,
}

impl Found {
    fn new(question: Question) -> Found {
        let Question { table, ty, at, usage } = &question;
        let asked = ours(table, *ty, *at, usage, MOST).map_or(MOST, |asked| asked.questions);
        let score = asked as f64 / (question.nodes() * question.types()) as f64;
        Found { question, score }
    }
}

/// A search among some inputs, within limits, until a time.
struct Search<'a> {
    among: Among,
    limits: Limits,
    until: Instant,
    rng: &'a mut Rng,
    tries: u64,
}

impl Search<'_> {
    fn ended(&self) -> bool {
        Instant::now() >= self.until
    }

    fn takes(&self, question: &Question) -> bool {
        self.limits.allow(question) && self.among.has(question)
    }

    /// Climbs from generated questions, and every third time from the best one.
    fn best(&mut self, begin: Option<Question>) -> Option<Found> {
        let mut fresh = Calls::new(CallKind::Supports, self.among.source(), self.rng.draw());
        let mut best = begin.filter(|question| self.takes(question)).map(Found::new);
        while !self.ended() {
            let known = best.as_ref().filter(|_| self.rng.one_in(3)).cloned();
            let Some(from) = known.or_else(|| self.drawn(&mut fresh)) else { continue };
            let top = self.climb(from);
            if best.as_ref().is_none_or(|best| top.score > best.score) {
                best = Some(top);
            }
        }
        best
    }

    /// A generated question, if it is one of those that are searched.
    fn drawn(&self, fresh: &mut Calls) -> Option<Found> {
        let Call { table, first, ty, offset, .. } = fresh.next()?;
        let table = read_table(&table, Faults::NONE)?;
        let usage = read_memory(&first, Faults::NONE)?;
        let question = Question { table, ty, at: offset, usage };
        self.takes(&question).then(|| Found::new(question))
    }

    /// Changes a question again and again. What asks a little less is sometimes kept too.
    fn climb(&mut self, from: Found) -> Found {
        let (mut last, mut best) = (from.clone(), from);
        let mut idle = 0;
        while idle < PATIENCE && !self.ended() {
            idle += 1;
            let least = if self.rng.one_in(20) { 0.8 * last.score } else { last.score };
            let Some(next) = self.changed(&last.question).filter(|next| next.score >= least) else {
                continue;
            };
            if next.score > best.score {
                best = next.clone();
                idle = 0;
            }
            last = next;
        }
        best
    }

    fn changed(&mut self, question: &Question) -> Option<Found> {
        self.tries += 1;
        let mut question = question.clone();
        for _ in 0..=self.rng.below(3) {
            change(self.rng, &mut question);
        }
        self.takes(&question).then(|| Found::new(question))
    }
}

/// The search among some inputs through all stages, in so long; each stage's best in words.
pub fn report(among: Among, time: Duration, seed: u64) -> String {
    let mut rng = Rng::new(seed);
    let mut begin = None;
    let mut lines = vec![format!("## {}", among.words())];
    for limits in STAGES {
        let until = Instant::now() + time / STAGES.len() as u32;
        let mut search = Search { among, limits, until, rng: &mut rng, tries: 0 };
        let found = search.best(begin.take());
        let tries = search.tries;
        lines.push(match &found {
            None => format!("{limits}: {tries} tried, none found"),
            Some(found) => format!("{limits}: {tries} tried\n{}", words(&found.question)),
        });
        begin = found.map(|found| found.question);
    }
    lines.join("\n\n")
}

/// More is not worked out for the figures of a question that was found.
const MOST_SHOWN: u64 = 20_000_000;

/// A question with its figures.
pub fn words(question: &Question) -> String {
    let Question { table, ty, at, usage } = question;
    let (nodes, types) = (question.nodes(), question.types());
    let asked = ours(table, *ty, *at, usage, MOST_SHOWN).map_or(MOST_SHOWN, |a| a.questions);
    let counted = plain(table, *ty, *at, usage, MOST_SHOWN as usize);
    let told = counted.map_or("past counting".to_owned(), |Counted { calls, distinct, .. }| {
        format!("{calls}, distinct {distinct}")
    });
    format!(
        "  table {table}\n  type {ty} at {at}: {usage}\n  {nodes} nodes, {types} types: ours {asked}, \
         for each node and type {:.2}; reference {told}",
        asked as f64 / (nodes * types) as f64
    )
}
