//! The memory as a picture: offsets across, a row for each usage and one for the result.

use crate::ask::{Answer, Question, name};
use crate::sheet::Sheet;
use crate::show::{chosen, conflict_lines, soundness};
use usage_merger::calls::MOST_NODES;
use usage_merger::{Error, QPtrMemUsage, QPtrMemUsageKind, QPtrUsage};

/// Slots of an array that are drawn apart, and counted apart when overlaps are looked for.
pub const MOST_SLOTS: u64 = 16;

/// A node's place. No end is a dynamic one.
pub struct Span {
    pub start: u64,
    pub end: Option<u64>,
    pub level: usize,
    pub label: String,
    pub class: &'static str,
    /// Where the slots of an array start.
    pub slots: Vec<u64>,
}

/// The end of an access of dynamic size.
pub const DYNAMIC: u64 = u64::MAX;

/// A stretch of bytes that a usage accesses.
#[derive(Clone, Copy)]
pub struct Access {
    pub start: u64,
    pub end: u64,
}

/// A usage with its words, as it is drawn.
pub struct Row {
    pub head: String,
    pub spans: Vec<Span>,
    pub accesses: Vec<Access>,
}

/// Draws the question and its answer; `None` if there are more nodes than are ever merged.
pub fn draw(question: &Question, asked: Result<&Answer, Error>) -> Option<String> {
    if question.nodes() > MOST_NODES {
        return None;
    }
    let mut rows: Vec<Row> = Vec::new();
    for (index, usage) in question.usages.iter().enumerate() {
        let at = if index == 1 { question.at } else { None };
        let sound = asked.ok().and_then(|answer| answer.sound.get(index).copied());
        rows.push(row(&input_head(index, usage, at, sound), usage.mem(), at.unwrap_or(0)));
    }
    let mut words = Vec::new();
    match asked {
        Ok(answer) => {
            let merged = &answer.result.merged;
            let sound = soundness(merged, answer.result_sound);
            let chosen = chosen(question.choices);
            rows.push(row(&format!("result: {merged} ({sound}{chosen})"), merged.mem(), 0));
            let line = |(conflict, mark)| format!("conflict{mark}: {conflict}");
            words.extend(conflict_lines(answer).into_iter().map(line));
            if words.is_empty() {
                words.push("no conflicts".into());
            }
        }
        Err(error) => rows.push(row(&format!("no result: {error}"), None, 0)),
    }
    Some(Sheet::of(&rows).drawn(&rows, &words))
}

fn input_head(index: usize, usage: &QPtrUsage, at: Option<u32>, sound: Option<bool>) -> String {
    let placed = at.map_or(String::new(), |offset| format!(", placed at {offset}"));
    let sound = sound.map_or(String::new(), |sound| format!(" ({})", soundness(usage, sound)));
    format!("{}{placed}: {usage}{sound}", name(index))
}

fn row(head: &str, usage: Option<&QPtrMemUsage>, at: u32) -> Row {
    let spans = usage.map_or(Vec::new(), |usage| spans(usage, u64::from(at)));
    let accesses = usage.map_or(Vec::new(), |usage| accesses(usage, u64::from(at)));
    Row { head: head.into(), spans, accesses }
}

/// The places of all nodes, each before what is in it. Of an array the first slot is shown.
fn spans(usage: &QPtrMemUsage, at: u64) -> Vec<Span> {
    let mut spans = Vec::new();
    let mut left = vec![(at, 0, usage)];
    while let Some((start, level, usage)) = left.pop() {
        spans.push(span(usage, start, level));
        let level = level.saturating_add(1);
        match &usage.kind {
            QPtrMemUsageKind::OffsetBase(entries) => {
                let start_of = |offset: &u32| start + u64::from(*offset);
                left.extend(entries.iter().map(|(offset, entry)| (start_of(offset), level, entry)));
            }
            QPtrMemUsageKind::DynOffsetBase { element, .. } => left.push((start, level, element)),
            _ => {}
        }
    }
    spans
}

fn span(usage: &QPtrMemUsage, start: u64, level: usize) -> Span {
    let size = usage.max_size.map_or("*".into(), |size| size.to_string());
    let (class, label) = match &usage.kind {
        QPtrMemUsageKind::Unused => ("unused", format!("U{size}")),
        QPtrMemUsageKind::StrictlyTyped(ty) => ("strict", format!("S{size},{}", ty.0)),
        QPtrMemUsageKind::DirectAccess(ty) => ("leaf", format!("D{size},{}", ty.0)),
        QPtrMemUsageKind::OffsetBase(_) => ("map", format!("O{size}")),
        QPtrMemUsageKind::DynOffsetBase { stride, .. } => ("array", format!("A{size},{stride}")),
    };
    let end = usage.max_size.map(|size| start + u64::from(size));
    Span { start, end, level, label, class, slots: slots(usage, start) }
}

/// Where the slots of an array start, if there are only a few.
fn slots(usage: &QPtrMemUsage, start: u64) -> Vec<u64> {
    let (QPtrMemUsageKind::DynOffsetBase { stride, .. }, Some(size)) =
        (&usage.kind, usage.max_size)
    else {
        return Vec::new();
    };
    let stride = u64::from(stride.get());
    let count = u64::from(size).div_ceil(stride);
    if count > MOST_SLOTS {
        return Vec::new();
    }
    (0..count).map(|slot| start + slot * stride).collect()
}

/// The bytes that typed leaves cover. An array of many or unknown elements counts as covered
/// throughout, and so does an array in an array.
fn accesses(usage: &QPtrMemUsage, at: u64) -> Vec<Access> {
    let mut accesses = Vec::new();
    let mut left = vec![(at, false, usage)];
    while let Some((start, nested, usage)) = left.pop() {
        let end = usage.max_size.map_or(DYNAMIC, |size| start + u64::from(size));
        match &usage.kind {
            QPtrMemUsageKind::Unused => {}
            QPtrMemUsageKind::StrictlyTyped(_) | QPtrMemUsageKind::DirectAccess(_) => {
                accesses.push(Access { start, end });
            }
            QPtrMemUsageKind::OffsetBase(entries) => {
                let start_of = |offset: &u32| start + u64::from(*offset);
                left.extend(
                    entries.iter().map(|(offset, entry)| (start_of(offset), nested, entry)),
                );
            }
            QPtrMemUsageKind::DynOffsetBase { element, .. } => {
                let slots = if nested { Vec::new() } else { slots(usage, start) };
                if slots.is_empty() {
                    accesses.push(Access { start, end });
                }
                left.extend(slots.into_iter().map(|slot| (slot, true, &**element)));
            }
        }
    }
    accesses.retain(|access| access.start < access.end);
    accesses
}
