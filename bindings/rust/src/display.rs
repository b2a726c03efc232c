//! Usages and tables written in the notation.

use crate::shapes::Handle;
use crate::table::{Components, Field, Table, TypeLayout, or_0};
use crate::usage::{QPtrMemUsage, QPtrMemUsageKind, QPtrUsage, Step, Walk};
use std::fmt::{self, Display, Formatter};

impl Display for QPtrMemUsage {
    fn fmt(&self, f: &mut Formatter<'_>) -> fmt::Result {
        let mut first = true;
        for step in Walk::of(self) {
            let Step::Node { offset, usage } = step else {
                f.write_str("]")?;
                first = false;
                continue;
            };
            if let Some(offset) = offset {
                write!(f, "{}{offset}:", if first { "" } else { " " })?;
            }
            first = write_head(f, usage)?;
        }
        Ok(())
    }
}

/// A node without what follows in it; true if its entries follow.
fn write_head(f: &mut Formatter<'_>, usage: &QPtrMemUsage) -> Result<bool, fmt::Error> {
    let size = match usage.max_size {
        Some(size) => size.to_string(),
        None => "*".into(),
    };
    match &usage.kind {
        QPtrMemUsageKind::Unused => write!(f, "U{size}")?,
        QPtrMemUsageKind::StrictlyTyped(ty) => write!(f, "S{size},{}", ty.0)?,
        QPtrMemUsageKind::DirectAccess(ty) => write!(f, "D{size},{}", ty.0)?,
        QPtrMemUsageKind::OffsetBase(_) => write!(f, "O{size}[")?,
        QPtrMemUsageKind::DynOffsetBase { stride, .. } => write!(f, "A{size},{stride},")?,
    }
    Ok(matches!(usage.kind, QPtrMemUsageKind::OffsetBase(_)))
}

impl Display for QPtrUsage {
    fn fmt(&self, f: &mut Formatter<'_>) -> fmt::Result {
        match self {
            QPtrUsage::Handles(Handle::Opaque(ty)) => write!(f, "Opaque {}", ty.0),
            QPtrUsage::Handles(Handle::Buffer(usage)) => write!(f, "Buffer {usage}"),
            QPtrUsage::Memory(usage) => write!(f, "Memory {usage}"),
        }
    }
}

impl Display for TypeLayout {
    fn fmt(&self, f: &mut Formatter<'_>) -> fmt::Result {
        let layout = match self {
            TypeLayout::Handle => return f.write_str("handle"),
            TypeLayout::Failed => return f.write_str("failed"),
            TypeLayout::Concrete(layout) => layout,
        };
        let size = match layout.dyn_unit_stride {
            None => layout.size.to_string(),
            Some(stride) => format!("{}+{stride}", layout.size),
        };
        match &layout.components {
            Components::Scalar => write!(f, "scalar {size}"),
            Components::Elements { stride, elem, fixed_len } => {
                write!(f, "elements {size} ({stride}, {}, {})", elem.0, or_0(*fixed_len))
            }
            Components::Fields(fields) => {
                let field = |field: &Field| format!("{}:{}", field.offset, field.ty.0);
                let fields: Vec<String> = fields.iter().map(field).collect();
                write!(f, "fields {size} {{{}}}", fields.join(" "))
            }
        }
    }
}

impl Display for Table {
    fn fmt(&self, f: &mut Formatter<'_>) -> fmt::Result {
        for (index, record) in self.records.iter().enumerate() {
            write!(f, "{}{record}", if index == 0 { "" } else { "; " })?;
        }
        Ok(())
    }
}
