//! The reference timed: from values, or from the bytes of streams to the bytes of the answer. Nobody watches meanwhile.

use super::Reference;
use super::published::{self, QPtrMemUsage, QPtrMemUsageKind, WithConflict};
use super::stand_ins::{LayoutCache, Type};
use super::translate::to_published;
use crate::reading::calls::{Given, Rules};
use crate::reading::streams::{ARRAY, DIRECT_ACCESS, LIST, MAP, MEMORY, STRICTLY_TYPED, UNUSED};
use crate::side::Choices;
use crate::usage::{Table, Usage};
use std::collections::BTreeMap;
use std::hint::black_box;
use std::num::NonZeroU32;
use std::rc::Rc;
use std::time::{Duration, Instant};

/// How long so many questions take: from values to the published types and asked, and asked alone.
pub fn time_supports(
    table: &Table,
    ty: u32,
    offset: u32,
    usage: &Usage,
    times: u32,
) -> [Duration; 2] {
    let given = Given { table, choices: Choices::default() };
    let start = Instant::now();
    for _ in 0..times {
        black_box(Reference.supports(given, ty, offset, black_box(usage)));
    }
    let whole = start.elapsed();
    let (cache, usage) = (LayoutCache::new(table), to_published(usage));
    let start = Instant::now();
    for _ in 0..times {
        let layout = cache.concrete(ty);
        black_box(published::supports_usage_at_offset(layout, offset, black_box(&usage)));
    }
    [whole, start.elapsed()]
}

/// How long it takes to decode a Memory so many times, and to drop what was decoded.
pub fn time_decode(memory: &[u8], times: u32) -> Duration {
    let start = Instant::now();
    for _ in 0..times {
        black_box(decode(&mut &black_box(memory)[1..]));
    }
    start.elapsed()
}

/// How long so many merges of the nodes of a list take: decoded, merged one after the other, encoded and dropped; and merged alone.
/// The layouts stand ready.
pub fn time_fold(table: &Table, list: &[u8], times: u32) -> [Duration; 2] {
    let cache = LayoutCache::new(table);
    let start = Instant::now();
    for _ in 0..times {
        let nodes = decode_list(black_box(list));
        let (merged, conflicts) = fold(&cache, nodes);
        let mut written = vec![MEMORY];
        encode(&merged, &mut written);
        black_box((&written, &conflicts));
    }
    let whole = start.elapsed();
    let mut alone = Duration::ZERO;
    for _ in 0..times {
        let nodes = decode_list(list);
        let start = Instant::now();
        let merged = black_box(fold(&cache, nodes));
        alone += start.elapsed();
        drop(merged);
    }
    [whole, alone]
}

fn fold(cache: &LayoutCache<'_>, nodes: Vec<QPtrMemUsage>) -> (QPtrMemUsage, usize) {
    let mut conflicts = 0;
    let merge = |last, next| {
        let (merged, conflict): WithConflict<_> = published::merge_mem_alone(cache, last, next);
        conflicts += usize::from(conflict.is_some());
        merged
    };
    let merged = nodes.into_iter().reduce(merge).expect("a list has at least one node");
    (merged, conflicts)
}

/// The nodes of a list that is known to be one.
fn decode_list(list: &[u8]) -> Vec<QPtrMemUsage> {
    assert_eq!(list[0], LIST);
    let mut rest = &list[3..];
    let count = usize::from(list[1]) + usize::from(list[2]) * 256;
    (0..count).map(|_| decode(&mut rest)).collect()
}

fn word(rest: &mut &[u8]) -> u32 {
    let (four, behind) = rest.split_first_chunk().expect("four bytes more");
    *rest = behind;
    u32::from_le_bytes(*four)
}

fn byte(rest: &mut &[u8]) -> u8 {
    let (one, behind) = rest.split_first().expect("a byte more");
    *rest = behind;
    *one
}

fn decode(rest: &mut &[u8]) -> QPtrMemUsage {
    let command = byte(rest);
    let fixed = byte(rest) != 0;
    let size = word(rest);
    let kind = match command {
        UNUSED => QPtrMemUsageKind::Unused,
        STRICTLY_TYPED => QPtrMemUsageKind::StrictlyTyped(Type(word(rest))),
        DIRECT_ACCESS => QPtrMemUsageKind::DirectAccess(Type(word(rest))),
        MAP => {
            let count = u32::from(byte(rest)) + u32::from(byte(rest)) * 256;
            let mut entries = BTreeMap::new();
            for _ in 0..count {
                let offset = word(rest);
                entries.insert(offset, decode(rest));
            }
            QPtrMemUsageKind::OffsetBase(Rc::new(entries))
        }
        ARRAY => {
            let stride = NonZeroU32::new(word(rest)).expect("a stride is not 0");
            QPtrMemUsageKind::DynOffsetBase { element: Rc::new(decode(rest)), stride }
        }
        _ => panic!("no command of a node: {command}"),
    };
    QPtrMemUsage { max_size: fixed.then_some(size), kind }
}

fn encode(usage: &QPtrMemUsage, out: &mut Vec<u8>) {
    let head = |out: &mut Vec<u8>, command: u8| {
        out.extend([command, u8::from(usage.max_size.is_some())]);
        out.extend(usage.max_size.unwrap_or(0).to_le_bytes());
    };
    match &usage.kind {
        QPtrMemUsageKind::Unused => head(out, UNUSED),
        QPtrMemUsageKind::StrictlyTyped(Type(ty)) => {
            head(out, STRICTLY_TYPED);
            out.extend(ty.to_le_bytes());
        }
        QPtrMemUsageKind::DirectAccess(Type(ty)) => {
            head(out, DIRECT_ACCESS);
            out.extend(ty.to_le_bytes());
        }
        QPtrMemUsageKind::OffsetBase(entries) => {
            head(out, MAP);
            out.extend((entries.len() as u16).to_le_bytes());
            for (offset, node) in entries.iter() {
                out.extend(offset.to_le_bytes());
                encode(node, out);
            }
        }
        QPtrMemUsageKind::DynOffsetBase { element, stride } => {
            head(out, ARRAY);
            out.extend(stride.get().to_le_bytes());
            encode(element, out);
        }
    }
}

#[cfg(test)]
mod tests {
    use super::*;
    use crate::notation::usage;
    use crate::reading::streams::write_list;

    #[test]
    fn what_is_decoded_is_encoded_again() {
        let node = usage("O*[0:S4,1 4:A8,4,U4 12:O4[0:D4,0]]");
        let list = write_list(&[node]);
        let mut written = Vec::new();
        encode(&decode_list(&list)[0], &mut written);
        assert_eq!(written, &list[3..]);
    }
}
