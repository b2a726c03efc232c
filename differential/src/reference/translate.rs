//! Values to the published types and back, and conflicts to document 01's report.

use super::published::{QPtrMemUsage, QPtrMemUsageKind, QPtrUsage, shapes};
use super::stand_ins::{AddrSpace, Diag, Part, Type};
use crate::reading::report;
use crate::usage::{Entry, Kind, Size, Top, Usage};
use std::num::NonZeroU32;
use std::rc::Rc;

pub fn to_published(usage: &Usage) -> QPtrMemUsage {
    let max_size = match usage.size {
        Size::Fixed(size) => Some(size),
        Size::Dynamic => None,
    };
    let kind = match &usage.kind {
        Kind::Unused => QPtrMemUsageKind::Unused,
        Kind::Leaf { strict: true, ty } => QPtrMemUsageKind::StrictlyTyped(Type(*ty)),
        Kind::Leaf { strict: false, ty } => QPtrMemUsageKind::DirectAccess(Type(*ty)),
        Kind::Map(entries) => {
            let entries = entries.iter().map(|entry| (entry.offset, to_published(&entry.node)));
            QPtrMemUsageKind::OffsetBase(Rc::new(entries.collect()))
        }
        Kind::Array { stride, element } => QPtrMemUsageKind::DynOffsetBase {
            element: Rc::new(to_published(element)),
            stride: NonZeroU32::new(*stride).expect("a stride is not 0"),
        },
    };
    QPtrMemUsage { max_size, kind }
}

pub fn from_published(usage: &QPtrMemUsage) -> Usage {
    let kind = match &usage.kind {
        QPtrMemUsageKind::Unused => Kind::Unused,
        QPtrMemUsageKind::StrictlyTyped(Type(ty)) => Kind::Leaf { strict: true, ty: *ty },
        QPtrMemUsageKind::DirectAccess(Type(ty)) => Kind::Leaf { strict: false, ty: *ty },
        QPtrMemUsageKind::OffsetBase(entries) => {
            let entry = |(&offset, node)| Entry { offset, node: from_published(node) };
            Kind::Map(entries.iter().map(entry).collect())
        }
        QPtrMemUsageKind::DynOffsetBase { element, stride } => {
            Kind::Array { stride: stride.get(), element: Box::new(from_published(element)) }
        }
    };
    Usage { size: usage.max_size.map_or(Size::Dynamic, Size::Fixed), kind }
}

pub fn top_to_published(top: &Top) -> QPtrUsage {
    match top {
        Top::Opaque(ty) => QPtrUsage::Handles(shapes::Handle::Opaque(Type(*ty))),
        Top::Buffer(node) => {
            QPtrUsage::Handles(shapes::Handle::Buffer(AddrSpace::Handles, to_published(node)))
        }
        Top::Memory(node) => QPtrUsage::Memory(to_published(node)),
    }
}

pub fn top_from_published(usage: &QPtrUsage) -> Top {
    match usage {
        QPtrUsage::Handles(shapes::Handle::Opaque(Type(ty))) => Top::Opaque(*ty),
        QPtrUsage::Handles(shapes::Handle::Buffer(AddrSpace::Handles, node)) => {
            Top::Buffer(from_published(node))
        }
        QPtrUsage::Memory(node) => Top::Memory(from_published(node)),
    }
}

/// The report of a conflict: each part of its message is one command, or no bytes at all.
pub fn report_of(conflict: Option<Diag>) -> Vec<u8> {
    let parts = conflict.into_iter().flat_map(|diag| diag.message);
    parts.flat_map(|part| report_of_part(&part)).collect()
}

fn report_of_part(part: &Part) -> Vec<u8> {
    let text = match part {
        Part::Usage => return Vec::new(),
        Part::FailedLayout(Type(ty)) => return report::conflict(report::FAILED, &[*ty]),
        Part::Text(text) => text.trim(),
    };
    let command = match text {
        // What stands around the usages that are not carried, and between conflicts.
        "" | "vs" | ")" => return Vec::new(),
        "merge:" => report::UNLIKE,
        _ if text.ends_with("conflicts:") => report::CONFLICTS,
        _ if text.starts_with('+') => report::AT_OFFSET,
        _ if text.contains("straddling") => report::STRADDLE,
        _ if text.contains("stride=") => report::STRIDE,
        _ if text.contains("subcomponents") => report::TYPE,
        _ if text.contains("handle type") => report::HANDLE,
        _ => panic!("a conflict of the reference is not known: {text}"),
    };
    report::conflict(command, &numbers(text))
}

/// The numbers that stand in a text, in order: they are the operands.
fn numbers(text: &str) -> Vec<u32> {
    let digits = text.split(|c: char| !c.is_ascii_digit()).filter(|part| !part.is_empty());
    digits.map(|part| part.parse().expect("an operand has 32 bits")).collect()
}
