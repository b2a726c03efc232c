//! Streams of about 512 nodes, on both sides of the limit, and streams far deeper than any stack.

use super::rng::Rng;
use crate::notation;
use crate::reading::calls::MOST_NODES;
use crate::reading::streams::{ARRAY, MAP, UNUSED};
use crate::usage::{Entry, Kind, Size, Table, Usage};

/// A stream of a million nested arrays or of 20,000 nested maps, now and then with a damaged byte.
pub fn deep_stream(rng: &mut Rng, top: &[u8]) -> Vec<u8> {
    let (level, depth): (&[u8], usize) = match rng.below(2) {
        0 => (&[ARRAY, 1, 4, 0, 0, 0, 4, 0, 0, 0], 1_000_000),
        _ => (&[MAP, 1, 4, 0, 0, 0, 1, 0, 0, 0, 0, 0], 20_000),
    };
    let mut bytes = [top, &level.repeat(depth), &[UNUSED, 1, 4, 0, 0, 0]].concat();
    if rng.one_in(2) {
        let at = rng.below(bytes.len());
        bytes[at] ^= 1 << rng.below(8);
    }
    bytes
}

/// A flat table: the published recursion of support is exponential in a table's depth.
pub fn table() -> Table {
    notation::table("scalar 4; scalar 4; fields 8 {0:0 4:1}; elements 16 (4, 0, 4); handle; failed")
}

/// How many nodes a call's inputs have together: mostly up to the limit, sometimes beyond.
pub fn nodes(rng: &mut Rng) -> usize {
    match rng.below(6) {
        0 => MOST_NODES,
        1 => MOST_NODES + 1,
        2 => MOST_NODES + 1 + rng.below(80),
        3 => MOST_NODES - 1,
        _ => 100 + rng.below(MOST_NODES - 100),
    }
}

/// A usage of so many nodes.
pub fn usage(rng: &mut Rng, nodes: usize) -> Usage {
    match rng.below(5) {
        0 => nested_maps(rng, nodes),
        1 => nested_arrays(rng, nodes),
        2 => two_levels(rng, nodes),
        _ => flat_map(rng, nodes),
    }
}

fn leaf(rng: &mut Rng, size: u32) -> Usage {
    let kind = Kind::Leaf { strict: rng.one_in(8), ty: rng.below(2) as u32 };
    Usage { size: Size::Fixed(size), kind }
}

/// A map of leaves, here and there with a gap.
fn flat_map(rng: &mut Rng, nodes: usize) -> Usage {
    let mut offset = 4 * rng.below(4) as u32;
    let mut entries = Vec::new();
    for _ in 1..nodes {
        entries.push(Entry { offset, node: leaf(rng, 4) });
        offset += rng.pick(&[4, 4, 4, 8, 12]);
    }
    let size = if rng.one_in(3) { Size::Dynamic } else { Size::Fixed(4096) };
    Usage { size, kind: Kind::Map(entries) }
}

fn nested_maps(rng: &mut Rng, nodes: usize) -> Usage {
    let mut usage = leaf(rng, 4);
    for _ in 1..nodes {
        let offset = if rng.one_in(4) { 4 } else { 0 };
        let size = Size::Fixed(if rng.one_in(40) { 0 } else { 4096 });
        usage = Usage { size, kind: Kind::Map(vec![Entry { offset, node: usage }]) };
    }
    usage
}

fn nested_arrays(rng: &mut Rng, nodes: usize) -> Usage {
    let mut usage = leaf(rng, 4);
    for _ in 1..nodes {
        let stride = if rng.one_in(100) { 8 } else { 4 };
        usage =
            Usage { size: Size::Fixed(4), kind: Kind::Array { stride, element: Box::new(usage) } };
    }
    usage
}

/// Maps of some ten entries in one map.
fn two_levels(rng: &mut Rng, nodes: usize) -> Usage {
    let (mut left, mut offset, mut entries) = (nodes - 1, 0, Vec::new());
    while left > 0 {
        let inner = left.min(2 + rng.below(9));
        let node = Usage { size: Size::Fixed(64), ..flat_map(rng, inner) };
        entries.push(Entry { offset, node });
        offset += 64;
        left -= inner;
    }
    Usage { size: Size::Dynamic, kind: Kind::Map(entries) }
}
