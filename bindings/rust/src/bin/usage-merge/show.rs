//! Answers and refusals in words.

use crate::ask::{Answer, Question, Received, name};
use crate::lookup::FoundBy;
use std::fmt::Write;
use usage_merger::shapes::Handle;
use usage_merger::{
    Choices, Conflict, Error, Lookup, QPtrMemUsage, QPtrMemUsageKind, QPtrUsage, Receiver, Refusal,
    Table, Ties, Type, UsageMerger,
};

/// A number of things.
pub fn count(number: impl Into<u64>, thing: &str) -> String {
    let number = number.into();
    format!("{number} {thing}{}", if number == 1 { "" } else { "s" })
}

fn nodes(usage: &QPtrUsage) -> String {
    count(usage.nodes() as u64, "node")
}

/// The whole answer.
pub fn answer(question: &Question, answer: &Answer) -> String {
    let mut text = String::new();
    usages(&mut text, question, answer);
    text.push('\n');
    tree(&mut text, &answer.result.merged, &question.table);
    text.push('\n');
    conflicts(&mut text, answer);
    limits(&mut text, question, answer);
    text
}

/// The column of usages is no wider than this; a longer one pushes its notes aside.
const WIDEST: usize = 56;

/// What went in and what came out, a line each.
fn usages(text: &mut String, question: &Question, answer: &Answer) {
    let mut lines: Vec<(String, &QPtrUsage, String)> = Vec::new();
    for (index, (usage, sound)) in question.usages.iter().zip(&answer.sound).enumerate() {
        lines.push((name(index), usage, notes(question, answer, index, *sound)));
    }
    let merged = &answer.result.merged;
    let (sound, chosen) = (soundness(merged, answer.result_sound), chosen(question.choices));
    let merged_notes = format!("{sound}, {}{chosen}", nodes(merged));
    lines.push((verb(question).into(), merged, merged_notes));
    let written: Vec<String> = lines.iter().map(|(_, usage, _)| usage.to_string()).collect();
    let wide = written.iter().map(String::len).max().unwrap_or(0).min(WIDEST);
    for ((name, _, notes), usage) in lines.iter().zip(written) {
        let _ = writeln!(text, "{name:<7} {usage:<wide$}  {notes}");
    }
}

fn verb(question: &Question) -> &'static str {
    match (question.usages.len(), question.at) {
        (_, Some(_)) => "placed",
        (2, None) => "merged",
        _ => "folded",
    }
}

/// What there is to say of an input.
fn notes(question: &Question, answer: &Answer, index: usize, sound: bool) -> String {
    let Some(usage) = question.usages.get(index) else { return String::new() };
    let mut notes = vec![soundness(usage, sound).to_string(), nodes(usage)];
    if let Some(Received { receiver, tied }) = answer.received
        && index == usize::from(receiver == Receiver::Second)
    {
        notes.push(match tied {
            true => format!("receives: a tie, and {}", tie_rule(question.choices.ties)),
            false => "receives".into(),
        });
    }
    if let (Some(offset), 1) = (question.at, index) {
        notes.push(format!("at {offset}"));
    }
    notes.join(", ")
}

fn tie_rule(ties: Ties) -> &'static str {
    match ties {
        Ties::First => "ties go to the first",
        Ties::Second => "ties go to the second",
    }
}

/// What was chosen, each behind a comma, where it is not what the source does.
pub fn chosen(choices: Choices) -> String {
    let ties = match choices.ties {
        Ties::Second => String::new(),
        Ties::First => format!(", {}", tie_rule(Ties::First)),
    };
    let lookup = match choices.lookup {
        Lookup::Lenient => "",
        Lookup::Strict => ", strict lookup",
    };
    ties + lookup
}

/// Whether a usage is sound, in a word or two.
pub fn soundness(usage: &QPtrUsage, sound: bool) -> &'static str {
    match usage {
        QPtrUsage::Handles(Handle::Opaque(_)) => "handle",
        _ if sound => "sound",
        _ => "not sound",
    }
}

/// The merged usage, a node to a line.
fn tree(text: &mut String, usage: &QPtrUsage, table: &Table) {
    let memory = match usage {
        QPtrUsage::Handles(Handle::Opaque(ty)) => {
            let _ = writeln!(text, "  opaque handle, {}", type_words(*ty, table));
            return;
        }
        QPtrUsage::Handles(Handle::Buffer(memory)) => {
            text.push_str("  buffer of\n");
            memory
        }
        QPtrUsage::Memory(memory) => memory,
    };
    let mut left = vec![(1, String::new(), memory)];
    while let Some((level, place, usage)) = left.pop() {
        let indent = "  ".repeat(level);
        let _ = writeln!(text, "{indent}{place}{}", node_words(usage, table));
        let level = level.saturating_add(1);
        match &usage.kind {
            QPtrMemUsageKind::OffsetBase(entries) => {
                let entry = |(offset, entry)| (level, format!("at {offset}: "), entry);
                left.extend(entries.iter().rev().map(entry));
            }
            QPtrMemUsageKind::DynOffsetBase { element, .. } => {
                left.push((level, "each element: ".into(), element));
            }
            _ => {}
        }
    }
}

/// A node without what is in it.
fn node_words(usage: &QPtrMemUsage, table: &Table) -> String {
    let size = match usage.max_size {
        Some(size) => count(size, "byte"),
        None => "dynamic size".into(),
    };
    match &usage.kind {
        QPtrMemUsageKind::Unused => format!("Unused, {size}"),
        QPtrMemUsageKind::StrictlyTyped(ty) => {
            format!("StrictlyTyped, {size}, {}", type_words(*ty, table))
        }
        QPtrMemUsageKind::DirectAccess(ty) => {
            format!("DirectAccess, {size}, {}", type_words(*ty, table))
        }
        QPtrMemUsageKind::OffsetBase(entries) => {
            let (count, plural) = (entries.len(), if entries.len() == 1 { "y" } else { "ies" });
            format!("OffsetBase, {size}, {count} entr{plural}")
        }
        QPtrMemUsageKind::DynOffsetBase { stride, .. } => {
            format!("DynOffsetBase, {size}, stride {stride}")
        }
    }
}

fn type_words(ty: Type, table: &Table) -> String {
    match table.get(ty) {
        Some(record) => format!("type {} ({record})", ty.0),
        None => format!("type {}", ty.0),
    }
}

fn conflicts(text: &mut String, answer: &Answer) {
    let _ = writeln!(text, "{}", conflict_count(answer.result.conflicts.len()));
    for (line, mark) in conflict_lines(answer) {
        let _ = writeln!(text, "  {line}{mark}");
    }
    if let Some(lenient) = &answer.lenient {
        let others = conflict_count(lenient.conflicts);
        let _ = writeln!(text, "the lenient lookup gives the same usage and {others}");
    }
}

/// A line for each conflict, and the mark of those that the strict lookup alone finds.
pub fn conflict_lines(answer: &Answer) -> Vec<(String, &'static str)> {
    let found_by = |index| answer.lenient.as_ref().and_then(|lenient| lenient.found_by.get(index));
    let line = |(index, conflict)| {
        let mark = match found_by(index) {
            None | Some(FoundBy::Both) => "",
            Some(FoundBy::Strict) => " (strict lookup only)",
            Some(FoundBy::Unclear) => " (perhaps strict lookup only)",
        };
        (conflict_words(conflict), mark)
    };
    answer.result.conflicts.iter().enumerate().map(line).collect()
}

fn conflict_count(number: usize) -> String {
    match number {
        0 => "no conflicts".into(),
        number => count(number as u64, "conflict"),
    }
}

/// A conflict, with the name of the usage that was being merged in, if it is of a fold.
fn conflict_words(conflict: &Conflict) -> String {
    match conflict.node {
        None => conflict.to_string(),
        Some(node) => {
            let within = Conflict { node: None, ..conflict.clone() };
            format!("merging in the {}: {within}", name(usize::from(node)))
        }
    }
}

/// What was promised before the merge was made, and what came of it.
fn limits(text: &mut String, question: &Question, answer: &Answer) {
    let most = question.nodes() as u64;
    let pairs = most.saturating_mul(most.saturating_sub(1)) / 2;
    let pairings = answer.result.pairings;
    let _ = writeln!(
        text,
        "{}, of at most {pairs}; {}, of at most {most}",
        count(pairings, "pairing"),
        nodes(&answer.result.merged)
    );
    let _ = writeln!(
        text,
        "  promised of M = {} in: at most M nodes out, and M(M-1)/2 pairings",
        count(most, "node")
    );
    let unsound: Vec<String> = unsound(&answer.sound);
    let promise = if question.at.is_some() {
        "placing at an offset may be refused with 8 or 9, of sound usages too".into()
    } else if question.merges_tops() && answer.received.is_none() {
        "nothing is merged: never 8 or 9, and the answer is the first as it stands".into()
    } else if unsound.is_empty() {
        "all usages are sound: never 8 or 9, a sound answer, as large as the largest".into()
    } else {
        format!("not sound: {}; so it might have been refused with 8 or 9", unsound.join(", "))
    };
    let _ = writeln!(text, "  {promise}");
}

fn unsound(sound: &[bool]) -> Vec<String> {
    sound.iter().enumerate().filter(|(_, sound)| !**sound).map(|(index, _)| name(index)).collect()
}

/// Why there is no answer.
pub fn error(question: &Question, error: Error) -> String {
    let mut words = error.to_string();
    if let Some(more) = error.refusal().and_then(|refusal| reason(question, refusal)) {
        let _ = write!(words, "\n  {more}");
    }
    words
}

/// What in the question a refusal is about, where that can be told.
fn reason(question: &Question, refusal: Refusal) -> Option<String> {
    match refusal {
        Refusal::UnknownType => {
            Some(format!("the table has {}", count(question.table.records.len() as u64, "type")))
        }
        Refusal::TooManyNodes => Some(count(question.nodes() as u64, "node")),
        Refusal::Outgrown | Refusal::PastBits => {
            let mut merger = UsageMerger::new(&question.table).ok()?;
            let unsound = unsound(&question.sound(&mut merger).ok()?);
            let named = match unsound.is_empty() {
                true => "all usages are sound".into(),
                false => format!("not sound: {}", unsound.join(", ")),
            };
            let promise = match question.at {
                None => "sound usages are never refused so",
                Some(_) => "placing at an offset may be refused so, of sound usages too",
            };
            Some(format!("{named}; {promise}"))
        }
        _ => None,
    }
}
