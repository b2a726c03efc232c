//! Small changes of a question, for the search: of its table, of its usage, of what is asked. What comes of them need not be accepted.

use super::shapes::Question;
use crate::generate::Rng;
use crate::usage::{Components, Entry, Field, Kind, Layout, Record, Size, Table, Usage};
use std::mem;

/// Changes something.
pub fn change(rng: &mut Rng, question: &mut Question) {
    let types = question.types() as u32;
    match rng.below(12) {
        0 => question.ty = rng.below(types as usize) as u32,
        1 => question.at = number(rng),
        2 => add_record(rng, question),
        3 => remove_record(rng, question),
        4..=6 => change_record(rng, &mut question.table),
        _ => change_usage(rng, types, &mut question.usage),
    }
}

/// Mostly small, sometimes of any size.
fn number(rng: &mut Rng) -> u32 {
    match rng.below(8) {
        0..=2 => 0,
        3 => rng.below(8) as u32,
        4 | 5 => 4 * rng.below(8) as u32,
        6 => 1 << rng.below(31),
        _ => rng.below(1 << 30) as u32,
    }
}

fn size(rng: &mut Rng) -> Size {
    if rng.one_in(3) { Size::Dynamic } else { Size::Fixed(number(rng)) }
}

/// A new last record, which is mostly asked from then on: another once more, or one around another.
fn add_record(rng: &mut Rng, question: &mut Question) {
    let records = &mut question.table.records;
    let ty = if rng.one_in(2) { question.ty } else { rng.below(records.len()) as u32 };
    let Record::Concrete(layout) = records[ty as usize].clone() else { return };
    let components = match rng.below(3) {
        0 => layout.components,
        1 => Components::Fields(vec![Field { offset: 0, ty }]),
        _ => Components::Elements { stride: layout.size.max(1), ty, length: rng.below(3) as u32 },
    };
    records.push(Record::Concrete(Layout { components, ..layout }));
    if !rng.one_in(4) {
        question.ty = records.len() as u32 - 1;
    }
}

/// What named the record that is gone names the one before it.
fn remove_record(rng: &mut Rng, question: &mut Question) {
    if question.types() == 1 {
        return;
    }
    let gone = rng.below(question.types()) as u32;
    let renamed = |ty: u32| if ty >= gone { ty.saturating_sub(1) } else { ty };
    question.table.records.remove(gone as usize);
    for record in &mut question.table.records {
        let Record::Concrete(layout) = record else { continue };
        match &mut layout.components {
            Components::Scalar => {}
            Components::Elements { ty, .. } => *ty = renamed(*ty),
            Components::Fields(fields) => fields.iter_mut().for_each(|f| f.ty = renamed(f.ty)),
        }
    }
    question.ty = renamed(question.ty);
    each_leaf(&mut question.usage, &|ty| *ty = renamed(*ty));
}

fn each_leaf(usage: &mut Usage, change: &impl Fn(&mut u32)) {
    match &mut usage.kind {
        Kind::Unused => {}
        Kind::Leaf { ty, .. } => change(ty),
        Kind::Map(entries) => entries.iter_mut().for_each(|e| each_leaf(&mut e.node, change)),
        Kind::Array { element, .. } => each_leaf(element, change),
    }
}

fn change_record(rng: &mut Rng, table: &mut Table) {
    let number = number(rng);
    let place = rng.below(table.records.len());
    let earlier = rng.below(place.max(1)) as u32;
    let Record::Concrete(layout) = &mut table.records[place] else { return };
    match rng.below(4) {
        0 => layout.size = number,
        1 => layout.dynamic_stride = if rng.one_in(2) { 0 } else { number },
        _ => match &mut layout.components {
            Components::Scalar if place > 0 => {
                layout.components = Components::Fields(vec![Field { offset: 0, ty: earlier }]);
            }
            Components::Scalar => layout.size = number,
            Components::Elements { stride, ty, length } => match rng.below(3) {
                0 => *stride = number.max(1),
                1 => *ty = earlier,
                _ => *length = number,
            },
            Components::Fields(fields) => change_fields(rng, earlier, number, fields),
        },
    }
}

fn change_fields(rng: &mut Rng, earlier: u32, number: u32, fields: &mut Vec<Field>) {
    let place = rng.below(fields.len() + 1);
    match (rng.below(4), fields.get_mut(place)) {
        (0, Some(field)) => field.ty = earlier,
        (1, Some(field)) => field.offset = number,
        (2, Some(_)) => {
            fields.remove(place);
        }
        (_, Some(&mut Field { offset, .. })) => fields.insert(place, Field { offset, ty: earlier }),
        (_, None) => {
            let offset = fields.last().map_or(0, |last| last.offset);
            fields.push(Field { offset, ty: earlier });
        }
    }
}

/// Changes one node of a usage.
fn change_usage(rng: &mut Rng, types: u32, usage: &mut Usage) {
    let whole = usage.clone();
    let node = nth(usage, rng.below(whole.nodes()));
    match rng.below(8) {
        0 | 1 => wrap(rng, node),
        2 => unwrap(rng, node),
        3 => node.size = size(rng),
        4 => node.size = nth_size(&whole, rng),
        5 => {
            let ty = rng.below(types as usize) as u32;
            node.kind = Kind::Leaf { strict: false, ty };
        }
        _ => change_kind(rng, types, node),
    }
}

/// The node at a place, each counted before what is inside of it.
fn nth(usage: &mut Usage, place: usize) -> &mut Usage {
    if place == 0 {
        return usage;
    }
    let mut left = place - 1;
    match &mut usage.kind {
        Kind::Map(entries) => {
            for entry in entries {
                let nodes = entry.node.nodes();
                if left < nodes {
                    return nth(&mut entry.node, left);
                }
                left -= nodes;
            }
            panic!("the place is inside")
        }
        Kind::Array { element, .. } => nth(element, left),
        Kind::Unused | Kind::Leaf { .. } => panic!("the place is inside"),
    }
}

fn nth_size(usage: &Usage, rng: &mut Rng) -> Size {
    nth(&mut usage.clone(), rng.below(usage.nodes())).size
}

fn wrap(rng: &mut Rng, node: &mut Usage) {
    let inner = mem::replace(node, Usage::UNUSED);
    node.size = if rng.one_in(4) { size(rng) } else { inner.size };
    node.kind = match (rng.below(4), inner.size) {
        (0, Size::Fixed(stride)) if stride > 0 => Kind::Array { stride, element: Box::new(inner) },
        _ => {
            let offset = if rng.one_in(2) { 0 } else { number(rng) };
            Kind::Map(vec![Entry { offset, node: inner }])
        }
    };
}

/// Puts one of the nodes inside in the place of the whole.
fn unwrap(rng: &mut Rng, node: &mut Usage) {
    let inner = match &mut node.kind {
        Kind::Unused | Kind::Leaf { .. } => return,
        Kind::Map(entries) if entries.is_empty() => return,
        Kind::Map(entries) => entries.swap_remove(rng.below(entries.len())).node,
        Kind::Array { element, .. } => mem::replace(&mut **element, Usage::UNUSED),
    };
    *node = inner;
}

fn change_kind(rng: &mut Rng, types: u32, node: &mut Usage) {
    let number = number(rng);
    match &mut node.kind {
        Kind::Unused => node.kind = Kind::Leaf { strict: false, ty: 0 },
        Kind::Leaf { ty, .. } => *ty = rng.below(types as usize) as u32,
        Kind::Array { stride, .. } => *stride = number.max(1),
        Kind::Map(entries) => change_entries(rng, number, entries),
    }
}

fn change_entries(rng: &mut Rng, number: u32, entries: &mut Vec<Entry>) {
    let Some(place) = (!entries.is_empty()).then(|| rng.below(entries.len())) else { return };
    match rng.below(4) {
        0 => {
            entries.remove(place);
        }
        1 | 2 => entries[place].offset = number,
        _ => {
            let node = entries[place].node.clone();
            entries.push(Entry { offset: number, node });
        }
    }
    entries.sort_by_key(|entry| entry.offset);
    entries.dedup_by_key(|entry| entry.offset);
}
