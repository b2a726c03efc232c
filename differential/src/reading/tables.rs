//! "Layout tables": from bytes and back.

use super::bytes::{Reader, put_count, put_four};
use super::faults::{Fault, Faults};
use crate::usage::{Components, Field, Layout, Record, Table};

pub const SCALAR: u8 = 0x20;
pub const ELEMENTS: u8 = 0x21;
pub const FIELDS: u8 = 0x22;
pub const HANDLE: u8 = 0x23;
pub const FAILED: u8 = 0x24;

pub const MOST_RECORDS: u16 = 1_024;
pub const MOST_FIELDS: u16 = 64;

/// Reads a table; `None` if it breaks the table rules.
pub fn read_table(bytes: &[u8], faults: Faults) -> Option<Table> {
    let mut bytes = Reader::new(bytes);
    let count = bytes.two()?;
    if count > MOST_RECORDS && !faults.on(Fault::TableCount) {
        return None;
    }
    let mut table = Table::default();
    for _ in 0..count {
        let record = read_record(&mut bytes, &table, faults)?;
        table.records.push(record);
    }
    (bytes.is_empty() || faults.on(Fault::TableLeftOver)).then_some(table)
}

/// Reads one record. Components are looked up among the earlier ones.
fn read_record(bytes: &mut Reader<'_>, earlier: &Table, faults: Faults) -> Option<Record> {
    let command = bytes.byte()?;
    match command {
        HANDLE => return Some(Record::Handle),
        FAILED => return Some(Record::Failed),
        SCALAR | ELEMENTS | FIELDS => {}
        _ => return None,
    }
    let (size, dynamic_stride) = (bytes.four()?, bytes.four()?);
    let components = match command {
        SCALAR => Components::Scalar,
        ELEMENTS => read_elements(bytes, earlier)?,
        _ => Components::Fields(read_fields(bytes, earlier, faults)?),
    };
    Some(Record::Concrete(Layout { size, dynamic_stride, components }))
}

fn read_elements(bytes: &mut Reader<'_>, earlier: &Table) -> Option<Components> {
    let (stride, ty, length) = (bytes.four()?, bytes.four()?, bytes.four()?);
    let accepted = stride != 0 && earlier.concrete(ty).is_some();
    accepted.then_some(Components::Elements { stride, ty, length })
}

fn read_fields(bytes: &mut Reader<'_>, earlier: &Table, faults: Faults) -> Option<Vec<Field>> {
    let count = bytes.two()?;
    if count > MOST_FIELDS && !faults.on(Fault::TableFieldCount) {
        return None;
    }
    let mut fields = Vec::new();
    let mut last_end = 0;
    for index in 0..count {
        let field = Field { offset: bytes.four()?, ty: bytes.four()? };
        let layout = earlier.concrete(field.ty)?;
        if field.offset < last_end && !faults.on(Fault::TableOverlap) {
            return None;
        }
        last_end = match field.offset.checked_add(layout.size) {
            Some(end) => end,
            None if faults.on(Fault::TableFieldPast) => u32::MAX,
            None => return None,
        };
        let stands_last = index + 1 == count || faults.on(Fault::TableDynamicNotLast);
        if layout.dynamic_stride != 0 && !stands_last {
            return None;
        }
        fields.push(field);
    }
    Some(fields)
}

pub fn write_table(table: &Table) -> Vec<u8> {
    let mut bytes = Vec::new();
    put_count(&mut bytes, table.records.len());
    for record in &table.records {
        match record {
            Record::Handle => bytes.push(HANDLE),
            Record::Failed => bytes.push(FAILED),
            Record::Concrete(layout) => put_layout(&mut bytes, layout),
        }
    }
    bytes
}

fn put_layout(bytes: &mut Vec<u8>, layout: &Layout) {
    bytes.push(match layout.components {
        Components::Scalar => SCALAR,
        Components::Elements { .. } => ELEMENTS,
        Components::Fields(_) => FIELDS,
    });
    put_four(bytes, layout.size);
    put_four(bytes, layout.dynamic_stride);
    match &layout.components {
        Components::Scalar => {}
        Components::Elements { stride, ty, length } => {
            [stride, ty, length].into_iter().for_each(|number| put_four(bytes, *number));
        }
        Components::Fields(fields) => {
            put_count(bytes, fields.len());
            for field in fields {
                put_four(bytes, field.offset);
                put_four(bytes, field.ty);
            }
        }
    }
}
