//! A call that two sides answer differently, made smaller while they still do.

use crate::reading::calls::WORK_AREA;
use crate::reading::faults::Faults;
use crate::reading::streams::{read_list, read_top, write_list, write_top};
use crate::reading::tables::{read_table, write_table};
use crate::side::{Buffer, Call, CallKind};
use crate::usage::{Components, Entry, Kind, Layout, Record, Size, Table, Top, Usage};

/// The smallest call that greedy steps lead to, for which `differs` still holds.
pub fn shrink(mut call: Call, differs: impl Fn(&Call) -> bool) -> Call {
    while let Some(smaller) = smaller_calls(&call).into_iter().find(&differs) {
        call = smaller;
    }
    call
}

/// Calls that are one step smaller. Each step leads down, so that shrinking ends.
fn smaller_calls(call: &Call) -> Vec<Call> {
    let mut calls = Vec::new();
    let mut push = |change: &dyn Fn(&mut Call)| {
        let mut smaller = call.clone();
        change(&mut smaller);
        calls.push(smaller);
    };
    for first in smaller_streams(call.kind, &call.first) {
        push(&|call| call.first = first.clone());
    }
    for second in smaller_streams(call.kind, &call.second) {
        push(&|call| call.second = second.clone());
    }
    for (from, to) in lowerings(call) {
        let lowered = |bytes| lowered_stream(call.kind, bytes, from, to);
        if let (Some(first), Some(second)) = (lowered(&call.first), lowered(&call.second)) {
            push(&|call| (call.first, call.second) = (first.clone(), second.clone()));
        }
    }
    for table in smaller_tables(&call.table) {
        push(&|call| call.table = table.clone());
    }
    for offset in smaller_numbers(call.offset) {
        push(&|call| call.offset = offset);
    }
    for ty in smaller_numbers(call.ty) {
        push(&|call| call.ty = ty);
    }
    if call.kind != CallKind::Receiver && call.work != WORK_AREA {
        push(&|call| call.work = WORK_AREA);
    }
    let ample = Buffer { length: 256, fill: 0xff };
    if call.kind.writes() && (call.output, call.report) != (ample, ample) {
        push(&|call| (call.output, call.report) = (ample, ample));
    }
    calls
}

/// Numbers to be lowered everywhere at once, because sizes often have to stay equal.
fn lowerings(call: &Call) -> Vec<(u32, u32)> {
    let mut numbers: Vec<u32> = Vec::new();
    for bytes in [&call.first, &call.second] {
        for node in nodes_of(call.kind, bytes).unwrap_or_default() {
            collect_numbers(&node, &mut numbers);
        }
    }
    numbers.sort_unstable();
    numbers.dedup();
    let pairs = |from| smaller_numbers(from).into_iter().map(move |to| (from, to));
    numbers.into_iter().flat_map(pairs).collect()
}

/// The nodes of a stream or a list; `None` if it is not well-formed.
fn nodes_of(kind: CallKind, bytes: &[u8]) -> Option<Vec<Usage>> {
    match kind {
        _ if bytes.is_empty() => Some(Vec::new()),
        CallKind::Fold => read_list(bytes, Faults::NONE),
        _ => Some(read_top(bytes, Faults::NONE)?.node().into_iter().cloned().collect()),
    }
}

fn collect_numbers(usage: &Usage, numbers: &mut Vec<u32>) {
    if let Size::Fixed(size) = usage.size {
        numbers.push(size);
    }
    match &usage.kind {
        Kind::Unused | Kind::Leaf { .. } => {}
        Kind::Map(entries) => {
            for entry in entries {
                numbers.push(entry.offset);
                collect_numbers(&entry.node, numbers);
            }
        }
        Kind::Array { stride, element } => {
            numbers.push(*stride);
            collect_numbers(element, numbers);
        }
    }
}

/// A stream in which each size, offset and stride `from` is `to`; `None` if that is not well-formed.
fn lowered_stream(kind: CallKind, bytes: &[u8], from: u32, to: u32) -> Option<Vec<u8>> {
    let lower = |number| if number == from { to } else { number };
    let mut nodes = nodes_of(kind, bytes)?.into_iter().map(|node| lowered(node, &lower));
    let stream = match kind {
        _ if bytes.is_empty() => Vec::new(),
        CallKind::Fold => write_list(&nodes.collect::<Vec<_>>()),
        _ => match (read_top(bytes, Faults::NONE)?, nodes.next()) {
            (Top::Buffer(_), Some(node)) => write_top(&Top::Buffer(node)),
            (Top::Memory(_), Some(node)) => write_top(&Top::Memory(node)),
            (top, _) => write_top(&top),
        },
    };
    nodes_of(kind, &stream).map(|_| stream)
}

fn lowered(usage: Usage, lower: &impl Fn(u32) -> u32) -> Usage {
    let size = match usage.size {
        Size::Fixed(size) => Size::Fixed(lower(size)),
        Size::Dynamic => Size::Dynamic,
    };
    let kind = match usage.kind {
        Kind::Map(entries) => {
            let entry = |Entry { offset, node }| Entry {
                offset: lower(offset),
                node: lowered(node, lower),
            };
            Kind::Map(entries.into_iter().map(entry).collect())
        }
        Kind::Array { stride, element } => {
            Kind::Array { stride: lower(stride), element: Box::new(lowered(*element, lower)) }
        }
        leaf => leaf,
    };
    Usage { size, kind }
}

/// Smaller streams: of usages where the bytes are well-formed, else of bytes.
fn smaller_streams(kind: CallKind, bytes: &[u8]) -> Vec<Vec<u8>> {
    if kind == CallKind::Fold {
        return match read_list(bytes, Faults::NONE) {
            Some(nodes) => smaller_lists(&nodes).iter().map(|nodes| write_list(nodes)).collect(),
            None => smaller_bytes(bytes),
        };
    }
    match read_top(bytes, Faults::NONE) {
        Some(Top::Opaque(ty)) => {
            smaller_numbers(ty).into_iter().map(|ty| write_top(&Top::Opaque(ty))).collect()
        }
        Some(Top::Buffer(node)) => {
            smaller_usages(&node).into_iter().map(|node| write_top(&Top::Buffer(node))).collect()
        }
        Some(Top::Memory(node)) => {
            smaller_usages(&node).into_iter().map(|node| write_top(&Top::Memory(node))).collect()
        }
        None => smaller_bytes(bytes),
    }
}

fn smaller_bytes(bytes: &[u8]) -> Vec<Vec<u8>> {
    let without = |at: usize| [&bytes[..at], &bytes[at + 1..]].concat();
    let mut all: Vec<Vec<u8>> = (0..bytes.len()).map(without).collect();
    for (at, _) in bytes.iter().enumerate().filter(|(_, byte)| **byte > 1) {
        let mut zeroed = bytes.to_vec();
        zeroed[at] = 0;
        all.push(zeroed);
    }
    all
}

fn smaller_lists(nodes: &[Usage]) -> Vec<Vec<Usage>> {
    let mut all = Vec::new();
    for (index, node) in nodes.iter().enumerate() {
        if nodes.len() > 1 {
            let mut fewer = nodes.to_vec();
            fewer.remove(index);
            all.push(fewer);
        }
        for smaller in smaller_usages(node) {
            let mut nodes = nodes.to_vec();
            nodes[index] = smaller;
            all.push(nodes);
        }
    }
    all
}

/// Usages one step smaller: a part of it, a part left out, a number lowered.
fn smaller_usages(usage: &Usage) -> Vec<Usage> {
    let with_kind = |kind| Usage { size: usage.size, kind };
    let mut all = Vec::new();
    match &usage.kind {
        Kind::Unused => {}
        Kind::Leaf { strict, ty } => {
            all.push(with_kind(Kind::Leaf { strict: false, ty: *ty }));
            let lower = |ty| with_kind(Kind::Leaf { strict: *strict, ty });
            all.extend(smaller_numbers(*ty).into_iter().map(lower));
        }
        Kind::Map(entries) => {
            all.extend(entries.iter().map(|entry| entry.node.clone()));
            all.extend(
                smaller_maps(entries).into_iter().map(|entries| with_kind(Kind::Map(entries))),
            );
        }
        Kind::Array { stride, element } => {
            all.push((**element).clone());
            let with = |stride, element| with_kind(Kind::Array { stride, element });
            let strides = smaller_numbers(*stride).into_iter().filter(|stride| *stride > 0);
            all.extend(strides.map(|stride| with(stride, element.clone())));
            let elements = smaller_usages(element).into_iter().map(Box::new);
            all.extend(elements.map(|element| with(*stride, element)));
        }
    }
    all.push(with_kind(Kind::Unused));
    if let Size::Fixed(size) = usage.size {
        let lower = |size| Usage { size: Size::Fixed(size), kind: usage.kind.clone() };
        all.extend(smaller_numbers(size).into_iter().map(lower));
    }
    all.retain(|smaller| smaller != usage);
    all
}

/// Maps with one entry left out, lowered or smaller.
fn smaller_maps(entries: &[Entry]) -> Vec<Vec<Entry>> {
    let mut all = Vec::new();
    for (index, entry) in entries.iter().enumerate() {
        let (before, after) = (&entries[..index], &entries[index + 1..]);
        let with = |entry| [before, &[entry], after].concat();
        all.push([before, after].concat());
        let least = before.last().map_or(0, |last| last.offset + 1);
        let offsets = smaller_numbers(entry.offset).into_iter().filter(|offset| *offset >= least);
        all.extend(offsets.map(|offset| with(Entry { offset, node: entry.node.clone() })));
        let nodes = smaller_usages(&entry.node).into_iter();
        all.extend(nodes.map(|node| with(Entry { offset: entry.offset, node })));
    }
    all
}

/// Numbers below: nothing, some round ones, half, one less.
fn smaller_numbers(number: u32) -> Vec<u32> {
    let mut all =
        vec![0, 1, 4, 8, 16, number / 2, number.saturating_sub(4), number.saturating_sub(1)];
    all.retain(|smaller| *smaller < number);
    all.dedup();
    all
}

fn smaller_tables(bytes: &[u8]) -> Vec<Vec<u8>> {
    let Some(table) = read_table(bytes, Faults::NONE) else { return smaller_bytes(bytes) };
    let mut all = Vec::new();
    for index in 0..table.records.len() {
        let mut fewer = table.clone();
        fewer.records.remove(index);
        all.push(fewer);
        for record in smaller_records(&table.records[index]) {
            let mut simpler = table.clone();
            simpler.records[index] = record;
            all.push(simpler);
        }
    }
    let written = |table: &Table| write_table(table);
    let accepted = |bytes: &Vec<u8>| read_table(bytes, Faults::NONE).is_some();
    all.iter().map(written).filter(accepted).collect()
}

fn smaller_records(record: &Record) -> Vec<Record> {
    let Record::Concrete(layout) = record else { return Vec::new() };
    let mut all: Vec<Layout> = Vec::new();
    if layout.components != Components::Scalar {
        all.push(Layout { components: Components::Scalar, ..layout.clone() });
    }
    if layout.dynamic_stride != 0 {
        all.push(Layout { dynamic_stride: 0, ..layout.clone() });
    }
    all.extend(
        smaller_numbers(layout.size).into_iter().map(|size| Layout { size, ..layout.clone() }),
    );
    if let Components::Fields(fields) = &layout.components {
        for index in 0..fields.len() {
            let mut fewer = fields.clone();
            fewer.remove(index);
            all.push(Layout { components: Components::Fields(fewer), ..layout.clone() });
        }
    }
    all.into_iter().map(Record::Concrete).collect()
}
