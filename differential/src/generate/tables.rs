//! Accepted tables, of every kind of record.

use super::rng::Rng;
use crate::usage::{Components, Field, Layout, Record, Table};

/// A table of a few records. Most of them are consistent; every tenth size is not.
pub fn table(rng: &mut Rng, high: bool) -> Table {
    let mut table = Table::default();
    let count = if rng.one_in(60) { 0 } else { 2 + rng.below(6) };
    for _ in 0..count {
        let record = record(rng, &table, high);
        table.records.push(record);
    }
    table
}

/// A table with arrays that have lengths, in other arrays and in fields, too. If `dynamic`, arrays
/// and most numbers have a dynamic stride besides, so that dynamic usages fit them.
pub fn with_lengths(rng: &mut Rng, dynamic: bool) -> Table {
    let mut table = Table::default();
    let number = |rng: &mut Rng| {
        let size = rng.pick(&[0, 1, 2, 4, 4, 4, 8]);
        let dynamic_stride = if dynamic && !rng.one_in(3) { size.max(1) } else { 0 };
        Layout { size, dynamic_stride, components: Components::Scalar }
    };
    table.records.push(Record::Concrete(number(rng)));
    for index in 0..1 + rng.below(5) {
        let concrete: Vec<u32> = concrete_types(&table).collect();
        let kind = if index == 0 { 0 } else { rng.below(6) };
        let record = match kind {
            0..=2 => Record::Concrete(array(rng, &table, &concrete, dynamic)),
            3 => Record::Concrete(fields(rng, &table, &concrete, false)),
            4 => Record::Concrete(number(rng)),
            _ => record(rng, &table, false),
        };
        table.records.push(record);
    }
    table
}

/// Elements with a length, here and there with a gap between them.
fn array(rng: &mut Rng, earlier: &Table, concrete: &[u32], dynamic: bool) -> Layout {
    let ty = rng.pick(concrete);
    let size = earlier.concrete(ty).map_or(0, |layout| layout.size);
    let stride = size.max(1).saturating_add(rng.pick(&[0, 0, 0, 4]));
    let length = rng.pick(&[1, 1, 2, 2, 3, 4]);
    let dynamic_stride = if dynamic { stride } else { 0 };
    let components = Components::Elements { stride, ty, length };
    Layout { size: stride.saturating_mul(length), dynamic_stride, components }
}

fn concrete_types(table: &Table) -> impl Iterator<Item = u32> + use<'_> {
    types(table).filter(|&ty| table.concrete(ty).is_some())
}

fn record(rng: &mut Rng, earlier: &Table, high: bool) -> Record {
    let concrete: Vec<u32> = concrete_types(earlier).collect();
    let kind = if concrete.is_empty() { rng.below(5) } else { rng.below(16) };
    let mut layout = match kind {
        0 => return Record::Handle,
        1 => return Record::Failed,
        2..=6 => scalar(rng),
        7..=10 => elements(rng, earlier, &concrete, high),
        _ => fields(rng, earlier, &concrete, high),
    };
    if rng.one_in(10) {
        layout.size = rng.pick(&[0, 1, 4, 8, 12, 16, 20, 64, u32::MAX]);
    }
    if rng.one_in(10) {
        layout.dynamic_stride = rng.pick(&[1, 4, 4, 8]);
    }
    Record::Concrete(layout)
}

/// The numbers of a table's records.
pub fn types(table: &Table) -> impl Iterator<Item = u32> + use<> {
    0..u32::try_from(table.records.len()).expect("a table has at most 1,024 records")
}

fn scalar(rng: &mut Rng) -> Layout {
    let size = rng.pick(&[0, 1, 2, 4, 4, 4, 8]);
    Layout { size, dynamic_stride: 0, components: Components::Scalar }
}

fn elements(rng: &mut Rng, earlier: &Table, concrete: &[u32], high: bool) -> Layout {
    let ty = rng.pick(concrete);
    let size = earlier.concrete(ty).map_or(0, |layout| layout.size);
    let stride = match rng.below(6) {
        0 => rng.pick(&[1, 2, 4, 8, 16]),
        1 if high => rng.pick(&[u32::MAX, u32::MAX / 2, 1 << 31]),
        _ => size.max(1),
    };
    let length = rng.pick(&[0, 1, 2, 3, 4, 4]);
    let dynamic_stride = if length == 0 && !rng.one_in(6) { stride } else { 0 };
    let components = Components::Elements { stride, ty, length };
    Layout { size: stride.saturating_mul(length), dynamic_stride, components }
}

/// Fields one after another; zero-size ones may share an offset, a dynamic one ends the record.
fn fields(rng: &mut Rng, earlier: &Table, concrete: &[u32], high: bool) -> Layout {
    let mut fields = Vec::new();
    let mut layout = Layout { size: 0, dynamic_stride: 0, components: Components::Scalar };
    let mut end = if high && rng.one_in(3) { u32::MAX - 16 } else { 0 };
    for _ in 0..rng.below(5) {
        let ty = rng.pick(concrete);
        let field = earlier.concrete(ty).expect("the type is concrete");
        let Some(offset) = end.checked_add(rng.pick(&[0, 0, 0, 0, 1, 4])) else { break };
        let Some(field_end) = offset.checked_add(field.size) else { break };
        fields.push(Field { offset, ty });
        end = field_end;
        if field.dynamic_stride != 0 {
            layout.dynamic_stride = field.dynamic_stride;
            break;
        }
    }
    Layout { size: end, components: Components::Fields(fields), ..layout }
}
