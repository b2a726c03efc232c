//! "Containment and support". What the strict lookup changes of them is document 02's.

use super::Setting;
use super::faults::Fault;
use crate::side::Lookup;
use crate::usage::{Components, Entry, Field, Kind, Layout, Size, Usage};

/// A component that contains the range asked for, and the offset that remains within it.
struct Containing {
    ty: u32,
    remaining: u32,
}

impl Setting<'_> {
    /// Whether the type supports the usage at the offset. A type that is not concrete supports
    /// nothing; refusal 6 and the asking of rule 4 come before.
    pub fn supports(&self, ty: u32, offset: u32, usage: &Usage) -> bool {
        let Some(layout) = self.table.concrete(ty) else { return false };
        if self.on(Fault::SupportsAlways) || self.on(Fault::SupportsNever) {
            return self.on(Fault::SupportsAlways);
        }
        if usage.kind == Kind::Unused {
            return true;
        }
        let at_start = offset == 0 || self.on(Fault::SupportsAtAnyOffset);
        if usage.leaf_type() == Some(ty) && at_start {
            return true;
        }
        if !self.passes_size_test(layout, offset, usage) {
            return false;
        }
        self.component_supports(layout, offset, usage)
            || self.itself_supports(ty, layout, offset, usage)
    }

    /// A layout with a dynamic stride takes any size.
    fn passes_size_test(&self, layout: &Layout, offset: u32, usage: &Usage) -> bool {
        if self.on(Fault::SupportsNoSizeTest) {
            return true;
        }
        if layout.dynamic_stride != 0 && !self.on(Fault::SupportsSizeTestOfDynamic) {
            return true;
        }
        let dynamic_fits = self.on(Fault::SupportsDynamicFits);
        (usage.size != Size::Dynamic || dynamic_fits)
            && self.end(offset, usage) <= u64::from(layout.size)
    }

    /// The end e: the sum capped at 4,294,967,295, where dynamic counts as 0.
    fn end(&self, start: u32, usage: &Usage) -> u64 {
        let size = match usage.size {
            Size::Fixed(size) => size,
            Size::Dynamic => 0,
        };
        let end = u64::from(start) + u64::from(size);
        if self.on(Fault::ContainsEndNotCapped) { end } else { end.min(u64::from(u32::MAX)) }
    }

    fn component_supports(&self, layout: &Layout, offset: u32, usage: &Usage) -> bool {
        let component = self.unless_deaf(Fault::LookupNotByComponents);
        match &layout.components {
            Components::Scalar => false,
            &Components::Elements { stride, ty, length } => self
                .element_containing(stride, ty, length, offset, usage)
                .is_some_and(|found| component.supports(found.ty, found.remaining, usage)),
            Components::Fields(fields) => {
                let end = self.end(offset, usage);
                let found = fields.iter().filter(|field| self.field_contains(field, offset, end));
                let asked = if self.on(Fault::ContainsOnlyFirst) { 1 } else { usize::MAX };
                let rest = |field: &Field| offset - field.offset;
                found.take(asked).any(|field| component.supports(field.ty, rest(field), usage))
            }
        }
    }

    fn element_containing(
        &self,
        stride: u32,
        ty: u32,
        length: u32,
        start: u32,
        usage: &Usage,
    ) -> Option<Containing> {
        let index = start / stride;
        let end = self.end(start, usage);
        if self.lookup_is_strict_with(Fault::LookupEmptyNowhere) && end == u64::from(start) {
            return None;
        }
        let size = match index == length && length != 0 {
            true => self.size_at_length(ty, usage)?,
            false => self.element_size(ty, index, length)?,
        };
        let element_end = (index * stride).checked_add(size)?;
        let remaining = if self.on(Fault::SupportsElementAtS) { start } else { start % stride };
        (end <= u64::from(element_end)).then_some(Containing { ty, remaining })
    }

    /// How far the element at an index reaches that is not the length: below the length, or without
    /// one, its size, above it nothing.
    fn element_size(&self, ty: u32, index: u32, length: u32) -> Option<u32> {
        let last = length.checked_sub(1) == Some(index);
        let refused = (last && self.lookup_is_strict_with(Fault::LookupLastElement))
            || (length == 0 && self.lookup_is_strict_with(Fault::LookupNoLength))
            || (length == 0
                && index == 0
                && self.lookup_is_strict_with(Fault::LookupNoLengthAtZero));
        let reached = length == 0 || index < length || self.on(Fault::ContainsPastLength);
        let size = self.table.concrete(ty)?.size;
        (reached && !refused).then_some(size)
    }

    /// At the length stands an element of size 0, or with the strict lookup nothing. The lookup is
    /// asked here and nowhere else.
    fn size_at_length(&self, ty: u32, usage: &Usage) -> Option<u32> {
        let let_through = match usage.size {
            Size::Fixed(_) => self.on(Fault::LookupFixedLenient),
            Size::Dynamic => self.on(Fault::LookupDynamicLenient),
        };
        if self.lookup_is_strict() && !let_through {
            return None;
        }
        let full = self.on(Fault::ContainsFullAtLength) || self.on(Fault::ContainsPastLength);
        Some(if full { self.table.concrete(ty)?.size } else { 0 })
    }

    fn lookup_is_strict(&self) -> bool {
        let asked = self.unless_deaf(Fault::LookupNeverAsked);
        (asked.choices.lookup == Lookup::Strict) != self.on(Fault::LookupNegated)
    }

    /// Whether a fault of the strict lookup alone shows.
    fn lookup_is_strict_with(&self, fault: Fault) -> bool {
        self.on(fault) && self.lookup_is_strict()
    }

    fn field_contains(&self, field: &Field, start: u32, end: u64) -> bool {
        let Some(layout) = self.table.concrete(field.ty) else { return false };
        let open = layout.dynamic_stride != 0 && !self.on(Fault::ContainsDynamicEnds);
        let field_end = u64::from(field.offset) + u64::from(layout.size);
        let refused =
            self.lookup_is_strict_with(Fault::LookupFieldEnds) && u64::from(start) == field_end;
        field.offset <= start && (open || end <= field_end) && !refused
    }

    /// What is left when no component supports the usage.
    fn itself_supports(&self, ty: u32, layout: &Layout, offset: u32, usage: &Usage) -> bool {
        match &usage.kind {
            // Answered before anything else.
            Kind::Unused => true,
            Kind::Leaf { .. } => false,
            Kind::Map(entries) => {
                let supported = |entry| self.entry_supported(ty, layout, offset, entry);
                match self.on(Fault::SupportsMapFirst) {
                    true => entries.iter().any(supported),
                    false => entries.iter().all(supported),
                }
            }
            Kind::Array { stride, element } => {
                self.array_supported(layout, offset, usage.size, *stride, element)
            }
        }
    }

    fn entry_supported(&self, ty: u32, layout: &Layout, offset: u32, entry: &Entry) -> bool {
        let sum = match offset.checked_add(entry.offset) {
            Some(sum) => sum,
            None if self.on(Fault::SupportsSumWraps) => u32::MAX,
            None => return false,
        };
        if sum == 0 && !self.on(Fault::SupportsMapAtZero) {
            return self.supports(ty, 0, &entry.node);
        }
        let whole = self.on(Fault::SupportsMapWhole) && self.supports(ty, sum, &entry.node);
        let looked_up = self.unless_deaf(Fault::LookupNotByEntries);
        whole || looked_up.component_supports(layout, sum, &entry.node)
    }

    fn array_supported(
        &self,
        layout: &Layout,
        offset: u32,
        size: Size,
        stride: u32,
        element: &Usage,
    ) -> bool {
        let Components::Elements { stride: layout_stride, ty, length } = layout.components else {
            return false;
        };
        let equal = layout_stride == stride || self.on(Fault::SupportsArrayStride);
        let divisible = offset.is_multiple_of(stride) || self.on(Fault::SupportsArrayAnyOffset);
        equal
            && divisible
            && self.lengths_agree(offset, size, stride, length)
            && self.unless_deaf(Fault::LookupNotByComponents).supports(ty, 0, element)
    }

    /// Size dynamic with no length, or divisible and non-zero, and ending at the length.
    fn lengths_agree(&self, offset: u32, size: Size, stride: u32, length: u32) -> bool {
        let Size::Fixed(size) = size else {
            return length == 0 || self.on(Fault::SupportsDynamicArray);
        };
        let divisible = size.is_multiple_of(stride) || self.on(Fault::SupportsArrayRounded);
        let non_zero = size != 0 || self.on(Fault::SupportsArrayOfZero);
        let end = u64::from(offset / stride) + u64::from(size / stride);
        let shorter = self.on(Fault::SupportsArrayShorter) && end < u64::from(length);
        let equal = end == u64::from(length) && !self.lookup_is_strict_with(Fault::LookupArrayEnds);
        length != 0 && divisible && non_zero && (equal || shorter)
    }
}
