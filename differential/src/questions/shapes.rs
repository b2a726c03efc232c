//! Inputs on which the plain recursion takes exponential time, at any size.

use crate::generate::Rng;
use crate::usage::{Components, Entry, Field, Kind, Layout, Record, Size, Table, Usage};

/// A question of the layout test: the type, the offset and the usage, over a table.
#[derive(Clone, Debug, PartialEq, Eq)]
pub struct Question {
    pub table: Table,
    pub ty: u32,
    pub at: u32,
    pub usage: Usage,
}

impl Question {
    pub fn nodes(&self) -> usize {
        self.usage.nodes()
    }

    pub fn types(&self) -> usize {
        self.table.records.len()
    }
}

/// A scalar, and the type of the leaves, which is found nowhere in any chain.
const INNERMOST: u32 = 0;
const LEAF: u32 = 1;

/// The fields of a record of the layered shape.
const WIDTH: u32 = 64;

/// A scalar wrapped `k` times in records of one field; a leaf inside of `j` maps of one entry, at offset 0.
pub fn wrappers(k: u32, j: u32) -> Question {
    let (table, ty) = wrapped(k);
    Question { table, ty, at: 0, usage: in_maps(leaf(Size::Fixed(4)), j, 0) }
}

/// The same, asked of a record that holds the wrapped type at 4: what a leaf of that type asks when the maps are merged into it.
pub fn merged(k: u32, j: u32) -> Question {
    let (mut table, inner) = wrapped(k);
    let both = [Field { offset: 0, ty: INNERMOST }, Field { offset: 4, ty: inner }];
    let ty = push(&mut table, 8, 0, Components::Fields(both.into()));
    Question { table, ty, at: 4, usage: in_maps(leaf(Size::Fixed(4)), j, 0) }
}

/// `k` arrays of length 1 around a scalar, and a leaf inside of as many arrays.
pub fn arrays(k: u32) -> Question {
    let mut table = innermost(4);
    let around = |ty| Components::Elements { stride: 4, ty, length: 1 };
    let ty = (0..k).fold(INNERMOST, |ty, _| push(&mut table, 4, 0, around(ty)));
    let in_array = |element| {
        let kind = Kind::Array { stride: 4, element: Box::new(element) };
        Usage { size: Size::Fixed(4), kind }
    };
    let usage = (0..k).fold(leaf(Size::Fixed(4)), |element, _| in_array(element));
    Question { table, ty, at: 0, usage }
}

/// `l` levels of 64 records, each with the 64 of the level below as fields of size 0 at one offset; and a leaf of size 0.
pub fn layers(l: u32) -> Question {
    let (table, ty) = layered(l, WIDTH);
    Question { table, ty, at: 0, usage: leaf(Size::Fixed(0)) }
}

/// So many levels of so many records. A record has all of the level below as its fields.
fn layered(levels: u32, width: u32) -> (Table, u32) {
    let mut table = innermost(0);
    let mut below = vec![INNERMOST; width as usize];
    for _ in 0..levels {
        let fields: Vec<Field> = below.iter().map(|&ty| Field { offset: 0, ty }).collect();
        let record = || Components::Fields(fields.clone());
        below = (0..width).map(|_| push(&mut table, 0, 0, record())).collect();
    }
    (table, below[0])
}

fn wrapped(k: u32) -> (Table, u32) {
    let mut table = innermost(4);
    let around = |ty| Components::Fields(vec![Field { offset: 0, ty }]);
    let ty = (0..k).fold(INNERMOST, |ty, _| push(&mut table, 4, 0, around(ty)));
    (table, ty)
}

/// Two scalars of a size: the innermost type and the leaves'.
fn innermost(size: u32) -> Table {
    let mut table = Table::default();
    push(&mut table, size, 0, Components::Scalar);
    push(&mut table, size, 0, Components::Scalar);
    table
}

/// The number of a new record.
pub fn push(table: &mut Table, size: u32, dynamic_stride: u32, components: Components) -> u32 {
    let ty = table.records.len() as u32;
    table.records.push(Record::Concrete(Layout { size, dynamic_stride, components }));
    ty
}

fn leaf(size: Size) -> Usage {
    Usage { size, kind: Kind::Leaf { strict: false, ty: LEAF } }
}

/// A node inside of so many maps of its size, each of one entry at this offset.
fn in_maps(node: Usage, count: u32, offset: u32) -> Usage {
    let size = node.size;
    (0..count).fold(node, |node, _| Usage { size, kind: Kind::Map(vec![Entry { offset, node }]) })
}

/// `j` maps of size 0 around a leaf of size 0, under `l` levels of so many records each.
pub fn empty_maps(l: u32, width: u32, j: u32) -> Question {
    let (table, ty) = layered(l, width);
    Question { table, ty, at: 0, usage: in_maps(leaf(Size::Fixed(0)), j, 0) }
}

/// `k` records of size 0, each with all before it as its fields, and a leaf of size 0 inside of `j` maps of size 0.
pub fn empty_records(k: u32, j: u32) -> Question {
    let mut table = innermost(0);
    let ty = (0..k).fold(INNERMOST, |last, _| {
        let earlier = (0..=last).rev().filter(|&ty| ty != LEAF).take(WIDTH as usize);
        let fields = earlier.map(|ty| Field { offset: 0, ty }).collect();
        push(&mut table, 0, 0, Components::Fields(fields))
    });
    Question { table, ty, at: 0, usage: in_maps(leaf(Size::Fixed(0)), j, 0) }
}

/// `k` dynamic records, each with the one before it as its last field and 63 fields of size 0 beside that; and a leaf inside of `j`
/// dynamic maps.
pub fn crowded(k: u32, j: u32) -> Question {
    let mut table = innermost(0);
    let fields = |last: u32| {
        let beside = (1..WIDTH).map(|_| INNERMOST);
        beside.chain([last]).map(|ty| Field { offset: 0, ty }).collect()
    };
    let ty = push(&mut table, 0, 1, Components::Scalar);
    let around = |ty, _| push(&mut table, 0, 1, Components::Fields(fields(ty)));
    let ty = (0..k).fold(ty, around);
    Question { table, ty, at: 0, usage: in_maps(leaf(Size::Dynamic), j, 0) }
}

/// `k` arrays, each in a record of one field, whose elements are all as large as the array, at a stride of 1; and a leaf inside of `j`
/// maps, each at 1 in the next. All sizes are fixed.
pub fn overlapping(k: u32, j: u32) -> Question {
    let size = j + 4;
    let mut table = innermost(size);
    let ty = (0..k).fold(INNERMOST, |ty, _| {
        let elements = Components::Elements { stride: 1, ty, length: size };
        let ty = push(&mut table, size, 0, elements);
        push(&mut table, size, 0, Components::Fields(vec![Field { offset: 0, ty }]))
    });
    let in_map = |node: Usage, m| Usage {
        size: Size::Fixed(m + 5),
        kind: Kind::Map(vec![Entry { offset: 1, node }]),
    };
    Question { table, ty, at: 0, usage: (0..j).fold(leaf(Size::Fixed(4)), in_map) }
}

/// `k` dynamic arrays of each other, at strides that do not divide each other, and a leaf inside of `j` dynamic maps: the offsets of one
/// node in one type differ by the way that leads there.
pub fn strides(k: u32, j: u32) -> Question {
    let mut rng = Rng::new(5);
    let mut large = |least: u32| least + rng.below(least as usize) as u32;
    let mut table = Table::default();
    push(&mut table, 1 << 30, 1, Components::Scalar);
    push(&mut table, 1 << 30, 1, Components::Scalar);
    let ty = (0..k).fold(INNERMOST, |ty, _| {
        let stride = large(1 << 28);
        push(&mut table, 1 << 30, stride, Components::Elements { stride, ty, length: 0 })
    });
    let size = Size::Dynamic;
    let in_map =
        |node, _| Usage { size, kind: Kind::Map(vec![Entry { offset: large(1 << 29), node }]) };
    Question { table, ty, at: 0, usage: (0..j).fold(leaf(size), in_map) }
}
