//! What is timed: usages to read, questions of the layout test, pairs to merge; and what usages are made of.

use super::sized::{Given, interleaved, nests_of_arrays, same_offsets};
use crate::notation;
use crate::usage::{Entry, Kind, Size, Usage};

/// A shape's name, and a usage of that shape with so many nodes.
pub type Shape = (&'static str, fn(usize) -> Usage);

/// Usages to read.
pub const READ: [Shape; 4] = [
    ("flat map", flat),
    ("maps of seven", two_levels),
    ("nested arrays", nested_arrays),
    ("nested maps", nested_maps),
];

/// A question of the layout test: what is asked, the table, the type, the offset and the usage.
pub type Question = (&'static str, String, u32, u32, String);

pub fn questions() -> Vec<Question> {
    let fields = |n: u32| (0..n).map(|i| format!("{}:0", i * 4)).collect::<Vec<_>>().join(" ");
    let leaves = |n: u32| (0..n).map(|i| format!("{}:D4,0", i * 4)).collect::<Vec<_>>().join(" ");
    let nested = "scalar 4; fields 8 {0:0 4:0}; fields 16 {0:1 8:1}; fields 32 {0:2 16:2}; fields 64 {0:3 32:3}";
    vec![
        (
            "a struct of 8 fields, each used",
            format!("scalar 4; fields 32 {{{}}}", fields(8)),
            1,
            0,
            format!("O32[{}]", leaves(8)),
        ),
        (
            "an array of vectors",
            "scalar 4; elements 16 (4, 0, 4); elements 256 (16, 1, 16)".into(),
            2,
            0,
            "A256,16,D16,1".into(),
        ),
        ("structs nested 4 deep, one leaf", nested.into(), 4, 60, "D4,0".into()),
        (
            "a record of 64 fields, the last",
            format!("scalar 4; fields 256 {{{}}}", fields(64)),
            1,
            252,
            "D4,0".into(),
        ),
        (
            "a record of 64 fields, each used",
            format!("scalar 4; fields 256 {{{}}}", fields(64)),
            1,
            0,
            format!("O256[{}]", leaves(64)),
        ),
    ]
}

/// Pairs for the call merge: small ones, and some sizes of larger ones.
pub fn pairs() -> Vec<Given> {
    let small = [
        ("two equal leaves", ["D4,0", "D4,0"]),
        ("two maps of 3, disjoint", ["O*[0:D4,0 8:D4,0 16:D4,0]", "O*[4:D4,0 12:D4,0 20:D4,0]"]),
        ("two maps of 3, same offsets", ["O*[0:D4,0 4:D4,0 8:D4,0]"; 2]),
        (
            "two maps of 3, all conflicting",
            ["O12[0:S4,1 4:S4,1 8:S4,1]", "O12[0:D4,0 4:D4,0 8:D4,0]"],
        ),
    ];
    let named = |(words, pair): (&str, [&str; 2])| (words.into(), pair.map(notation::usage).into());
    let larger = [interleaved(502), same_offsets(502), nests_of_arrays(202)];
    small.map(named).into_iter().chain(larger).collect()
}

/// A flat map of dynamic size, with a leaf at each of these offsets.
pub fn at_offsets(offsets: impl Iterator<Item = u32>) -> Usage {
    map(Size::Dynamic, leaves(offsets))
}

/// So many offsets, each so far from the one before.
pub fn every(step: usize, first: usize, count: usize) -> impl DoubleEndedIterator<Item = u32> {
    (0..count).map(move |i| (i * step + first) as u32)
}

pub fn leaf() -> Usage {
    Usage { size: Size::Fixed(4), kind: Kind::Leaf { strict: false, ty: 0 } }
}

/// A leaf at each of these offsets.
pub fn leaves(offsets: impl Iterator<Item = u32>) -> impl Iterator<Item = (u32, Usage)> {
    offsets.map(|offset| (offset, leaf()))
}

pub fn map(size: Size, entries: impl Iterator<Item = (u32, Usage)>) -> Usage {
    let entries = entries.map(|(offset, node)| Entry { offset, node }).collect();
    Usage { size, kind: Kind::Map(entries) }
}

pub fn flat(nodes: usize) -> Usage {
    at_offsets(every(4, 0, nodes - 1))
}

fn two_levels(nodes: usize) -> Usage {
    let inner = |count: usize| map(Size::Fixed(32), leaves(every(4, 0, count - 1)));
    let (full, left) = ((nodes - 1) / 7, (nodes - 1) % 7);
    let counts = (0..full).map(|_| 7).chain((left > 0).then_some(left));
    map(Size::Dynamic, every(32, 0, nodes).zip(counts.map(inner)))
}

/// So many nodes, a leaf inside of arrays.
pub fn nested_arrays(nodes: usize) -> Usage {
    (1..nodes).fold(leaf(), |element, _| Usage {
        size: Size::Fixed(4),
        kind: Kind::Array { stride: 4, element: Box::new(element) },
    })
}

/// So many nodes, a leaf inside of maps of one entry.
pub fn nested_maps(nodes: usize) -> Usage {
    (1..nodes).fold(leaf(), |node, _| map(Size::Fixed(4), [(0, node)].into_iter()))
}
