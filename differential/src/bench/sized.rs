//! Merges and folds that can have any number of nodes: the shapes that tell one way of placing from another.

use super::shapes::{at_offsets, every, flat, leaf, leaves, map, nested_arrays, nested_maps};
use crate::generate::Rng;
use crate::side::CallKind;
use crate::usage::{Size, Usage};
use std::iter::once;

/// What a call is given: in words, and the usages.
pub type Given = (String, Vec<Usage>);

/// A shape: its name, the call, and what that is given for about so many nodes, and not more.
pub struct Shape {
    pub name: &'static str,
    pub kind: CallKind,
    pub given: fn(usize) -> Given,
}

pub const SHAPES: [Shape; 15] = [
    merge("flat maps, interleaved", interleaved),
    merge("flat maps, same offsets", same_offsets),
    merge("flat maps, second above first", second_above_first),
    merge("nested arrays", nests_of_arrays),
    merge("chains of maps", chains_of_maps),
    merge("maps of maps, same offsets", maps_of_maps_same),
    merge("maps of maps, interleaved", maps_of_maps_interleaved),
    merge("flat map taken by one entry", taken_by_one_entry),
    merge("entry covers a flat map", covered_by_one_entry),
    fold("one-leaf maps, equal sizes", equal_sizes),
    fold("one-leaf maps, larger first", larger_first),
    fold("one-leaf maps, descending", descending),
    fold("one-leaf maps, scattered", scattered),
    fold("flat 10 and leaves", flat_and_leaves),
    fold("chain and leaves", chain_and_leaves),
];

const fn merge(name: &'static str, given: fn(usize) -> Given) -> Shape {
    Shape { name, kind: CallKind::Merge, given }
}

const fn fold(name: &'static str, given: fn(usize) -> Given) -> Shape {
    Shape { name, kind: CallKind::Fold, given }
}

/// The shape of this name.
pub fn named(name: &str) -> Option<&'static Shape> {
    SHAPES.iter().find(|shape| shape.name == name)
}

/// The nodes of one of two usages, without its root.
fn below_root(nodes: usize) -> usize {
    nodes / 2 - 1
}

fn twice(usage: Usage) -> Vec<Usage> {
    vec![usage.clone(), usage]
}

/// Two flat maps, whose first offsets are told, with so far from each offset to the next.
fn two_flat(step: usize, firsts: [usize; 2], count: usize) -> Vec<Usage> {
    firsts.map(|first| at_offsets(every(step, first, count))).into()
}

pub fn interleaved(nodes: usize) -> Given {
    let count = below_root(nodes);
    (format!("two flat maps of {count}, interleaved"), two_flat(8, [0, 4], count))
}

pub fn same_offsets(nodes: usize) -> Given {
    let count = below_root(nodes);
    (format!("two flat maps of {count}, same offsets"), two_flat(4, [0, 0], count))
}

fn second_above_first(nodes: usize) -> Given {
    let count = below_root(nodes);
    let usages = two_flat(4, [0, 4 * count], count);
    (format!("two flat maps of {count}, second above first"), usages)
}

pub fn nests_of_arrays(nodes: usize) -> Given {
    let depth = below_root(nodes);
    (format!("nested arrays, depth {depth}"), twice(nested_arrays(depth + 1)))
}

fn chains_of_maps(nodes: usize) -> Given {
    let depth = below_root(nodes);
    (format!("two chains of {depth} maps"), twice(nested_maps(depth + 1)))
}

fn maps_of_maps_same(nodes: usize) -> Given {
    maps_of_maps(nodes, [0, 0], "same offsets")
}

fn maps_of_maps_interleaved(nodes: usize) -> Given {
    maps_of_maps(nodes, [0, 4], "interleaved")
}

/// Two maps of as many maps as each of those has leaves, the leaves shifted by so many bytes.
fn maps_of_maps(nodes: usize, shifts: [usize; 2], how: &str) -> Given {
    let fits = |side: &usize| 2 * (1 + side * (1 + side)) <= nodes;
    let side = (1..).take_while(fits).last().unwrap_or(1);
    let row = 8 * side;
    let usage = |shift| {
        let inner = map(fixed(row), leaves(every(8, shift, side)));
        let rows = every(row, 0, side).map(|offset| (offset, inner.clone()));
        map(fixed(row * side), rows)
    };
    (format!("maps of maps, {side} by {side}, {how}"), shifts.map(usage).into())
}

fn taken_by_one_entry(nodes: usize) -> Given {
    let count = nodes - 4;
    let usages = vec![at_offsets(every(4, 4, count)), one_entry(nodes, 0)];
    (format!("a flat map of {count} taken by one entry"), usages)
}

fn covered_by_one_entry(nodes: usize) -> Given {
    let count = nodes - 4;
    let usages = vec![one_entry(nodes, 4), at_offsets(every(4, 8, count))];
    (format!("an entry covers a flat map of {count}"), usages)
}

/// A map whose one entry is a map of one leaf, with room for so many leaves.
fn one_entry(room: usize, offset: u32) -> Usage {
    let entry = map(fixed(4 * room), leaves(once(0)));
    map(Size::Dynamic, once((offset, entry)))
}

fn equal_sizes(nodes: usize) -> Given {
    let count = below_root(nodes);
    (format!("{count} one-leaf maps of equal size"), one_leaf_maps(0, every(4, 0, count)))
}

fn larger_first(nodes: usize) -> Given {
    let offsets = every(4, 0, below_root(nodes));
    ("the same with a larger first map".into(), one_leaf_maps(4, offsets))
}

fn descending(nodes: usize) -> Given {
    let others = every(4, 4, below_root(nodes) - 1).rev();
    ("the same, the others descending".into(), one_leaf_maps(4, once(0).chain(others)))
}

fn scattered(nodes: usize) -> Given {
    let mut others: Vec<u32> = every(4, 4, below_root(nodes) - 1).collect();
    let mut places = Rng::new(1);
    for last in (1..others.len()).rev() {
        others.swap(last, places.below(last + 1));
    }
    ("the same, the others scattered".into(), one_leaf_maps(4, once(0).chain(others)))
}

/// A map with one leaf for each offset. All have room for all leaves, and the first is larger by so many bytes.
fn one_leaf_maps(larger: usize, offsets: impl Iterator<Item = u32>) -> Vec<Usage> {
    let offsets: Vec<u32> = offsets.collect();
    let room = |index| 4 * offsets.len() + if index == 0 { larger } else { 0 };
    let one = |(index, &offset)| map(fixed(room(index)), leaves(once(offset)));
    offsets.iter().enumerate().map(one).collect()
}

fn flat_and_leaves(nodes: usize) -> Given {
    let count = nodes - 12;
    (format!("a flat map of 10 and {count} leaves"), then_leaves(flat(11), count))
}

fn chain_and_leaves(nodes: usize) -> Given {
    let depth = below_root(nodes);
    let count = depth - 2;
    let usages = then_leaves(nested_maps(depth + 1), count);
    (format!("a chain of {depth} maps and {count} leaves"), usages)
}

fn then_leaves(first: Usage, count: usize) -> Vec<Usage> {
    once(first).chain((0..count).map(|_| leaf())).collect()
}

fn fixed(bytes: usize) -> Size {
    Size::Fixed(bytes as u32)
}

#[cfg(test)]
mod tests {
    use super::{SHAPES, Shape};
    use crate::bench::{merging_call, plain_table};
    use crate::compare::judge;
    use crate::library::Library;
    use crate::side::{Side, all_choices};
    use crate::usage::Usage;

    #[test]
    fn both_sides_answer_all_shapes_alike() {
        for Shape { name, kind, given } in SHAPES {
            for nodes in [64, 512] {
                let (_, usages) = given(nodes);
                let made: usize = usages.iter().map(Usage::nodes).sum();
                assert!((nodes * 15 / 16..=nodes).contains(&made), "{name}: {made} nodes");
                for choices in all_choices() {
                    let call = merging_call(kind, &plain_table(), &usages).with(choices);
                    assert_eq!(Library.answer(&call), judge(choices).answer(&call), "{name}");
                }
            }
        }
    }
}
