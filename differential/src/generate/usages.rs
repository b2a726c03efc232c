//! Usages: sound ones, ones that follow a type's layout, and well-formed ones of any kind.

use super::rng::Rng;
use super::tables::types;
use crate::reading::faults::Faults;
use crate::reading::sound::is_sound;
use crate::usage::{Components, Entry, Kind, Layout, Size, Table, Usage};

/// Makes usages over a table. Numbers are small, so that overlaps are frequent; with `high` some lie
/// near 2^32.
pub struct Maker<'a> {
    pub rng: &'a mut Rng,
    pub table: &'a Table,
    pub high: bool,
}

impl Maker<'_> {
    /// A sound usage.
    pub fn sound(&mut self) -> Usage {
        let size = self.root_size();
        let usage = match self.rng.below(3) {
            0 => self.any_shaped(3),
            _ => self.sound_of(size, 3),
        };
        if is_sound(&usage, Faults::NONE) { usage } else { self.sound_of(size, 2) }
    }

    /// A well-formed usage that is not sound (or, where luck fails, an empty map of size 0).
    pub fn unsound(&mut self) -> Usage {
        for _ in 0..8 {
            let usage = self.any();
            if !is_sound(&usage, Faults::NONE) {
                return usage;
            }
        }
        Usage { size: Size::Fixed(0), kind: Kind::Map(Vec::new()) }
    }

    /// A well-formed usage, sound or not: made at random, or a sound one with something changed.
    pub fn any(&mut self) -> Usage {
        match self.rng.below(4) {
            0 => self.wild(3),
            1 => self.any_shaped(3),
            _ => {
                let mut usage = self.sound();
                for _ in 0..=self.rng.below(2) {
                    self.change(&mut usage);
                }
                usage
            }
        }
    }

    /// A usage of the same shape with other leaves, other parts and some entries gone, so that two
    /// usages meet at many levels. What is made of a sound usage is sound.
    pub fn kin(&mut self, usage: &Usage) -> Usage {
        self.alike(usage, Self::kin_part)
    }

    /// A usage that ties with this one at every level where the two meet: the same with other types
    /// and some entries gone. What is made of a sound usage is sound.
    pub fn rival(&mut self, usage: &Usage) -> Usage {
        self.alike(usage, Self::rival_part)
    }

    /// A usage of the same shape with some entries gone. What `other` has for a part stands in its
    /// place.
    fn alike(&mut self, usage: &Usage, other: fn(&mut Self, &Usage) -> Option<Usage>) -> Usage {
        if let Some(part) = other(self, usage) {
            return part;
        }
        let kind = match &usage.kind {
            Kind::Map(entries) => {
                let mut kept = Vec::new();
                for Entry { offset, node } in entries {
                    if !self.rng.one_in(4) {
                        kept.push(Entry { offset: *offset, node: self.alike(node, other) });
                    }
                }
                Kind::Map(kept)
            }
            Kind::Array { stride, element } => {
                let element = Box::new(self.alike(element, other));
                Kind::Array { stride: *stride, element }
            }
            leaf => leaf.clone(),
        };
        Usage { size: usage.size, kind }
    }

    fn kin_part(&mut self, usage: &Usage) -> Option<Usage> {
        let size = usage.size;
        if self.rng.one_in(6) {
            return Some(self.sound_of(size, 2));
        }
        match usage.kind {
            Kind::Unused | Kind::Leaf { .. } if size == Size::Fixed(0) => Some(Usage::UNUSED),
            Kind::Unused | Kind::Leaf { .. } => Some(self.leaf(size)),
            Kind::Map(_) | Kind::Array { .. } => None,
        }
    }

    fn rival_part(&mut self, usage: &Usage) -> Option<Usage> {
        let ty = usage.leaf_type()?;
        let others: Vec<u32> = types(self.table).filter(|&other| other != ty).collect();
        let ty = if others.is_empty() { ty } else { self.rng.pick(&others) };
        let kind = Kind::Leaf { strict: self.rng.one_in(4), ty };
        Some(Usage { size: usage.size, kind })
    }

    fn root_size(&mut self) -> Size {
        match self.rng.below(if self.high { 6 } else { 5 }) {
            0 => Size::Dynamic,
            5 => Size::Fixed(u32::MAX - self.rng.pick(&[0, 1, 3, 4, 8])),
            _ => Size::Fixed(self.rng.pick(&[0, 4, 8, 8, 12, 16, 16, 24, 32])),
        }
    }

    fn small_size(&mut self) -> u32 {
        self.rng.pick(&[1, 2, 4, 4, 4, 4, 8, 8, 12, 16])
    }

    /// A type of this size if there is one, most of the time. `None` if the table is empty.
    fn leaf_type(&mut self, size: Size) -> Option<u32> {
        let fits = |layout: &Layout| match size {
            Size::Fixed(size) => layout.size == size,
            Size::Dynamic => layout.dynamic_stride != 0,
        };
        let all: Vec<u32> = types(self.table).collect();
        let fitting: Vec<u32> =
            all.iter().copied().filter(|&ty| self.table.concrete(ty).is_some_and(fits)).collect();
        let from = if fitting.is_empty() || self.rng.one_in(4) { &all } else { &fitting };
        (!from.is_empty()).then(|| self.rng.pick(from))
    }

    pub fn leaf(&mut self, size: Size) -> Usage {
        let kind = match self.leaf_type(size) {
            Some(ty) => Kind::Leaf { strict: self.rng.one_in(4), ty },
            None => Kind::Unused,
        };
        Usage { size, kind }
    }

    /// A sound usage of this size.
    fn sound_of(&mut self, size: Size, depth: u32) -> Usage {
        if size == Size::Fixed(0) {
            return Usage::UNUSED;
        }
        match self.rng.below(if depth == 0 { 4 } else { 10 }) {
            0 => Usage { size, kind: Kind::Unused },
            1..=3 => self.leaf(size),
            4..=7 => Usage { size, kind: Kind::Map(self.sound_entries(size, depth - 1)) },
            _ => {
                let stride = self.small_size();
                let element = Box::new(self.sound_of(Size::Fixed(stride), depth - 1));
                Usage { size, kind: Kind::Array { stride, element } }
            }
        }
    }

    fn sound_entries(&mut self, map: Size, depth: u32) -> Vec<Entry> {
        let limit = match map {
            Size::Fixed(size) => size,
            Size::Dynamic => u32::MAX,
        };
        let high = self.high && limit > 64 && self.rng.one_in(2);
        let mut free_from = if high { limit - self.rng.pick(&[4, 8, 16, 20]) } else { 0 };
        let mut entries = Vec::new();
        let most = if self.rng.one_in(8) { 12 } else { 4 };
        for _ in 0..1 + self.rng.below(most) {
            let Some(offset) = free_from.checked_add(self.rng.pick(&[0, 0, 0, 1, 4, 8])) else {
                break;
            };
            if map == Size::Dynamic && self.rng.one_in(5) {
                entries.push(Entry { offset, node: self.sound_of(Size::Dynamic, depth) });
                break;
            }
            let size = self.small_size();
            match offset.checked_add(size) {
                Some(end) if end <= limit => free_from = end,
                _ => break,
            }
            entries.push(Entry { offset, node: self.sound_of(Size::Fixed(size), depth) });
        }
        entries
    }

    /// A usage that follows the layout of some type, so that support is found often.
    fn any_shaped(&mut self, depth: u32) -> Usage {
        match types(self.table).count() {
            0 => Usage::UNUSED,
            count => {
                let ty = self.rng.below(count) as u32;
                self.shaped(ty, depth)
            }
        }
    }

    /// A usage that follows the layout of this type.
    pub fn shaped(&mut self, ty: u32, depth: u32) -> Usage {
        let table = self.table;
        let Some(layout) = table.concrete(ty) else { return self.leaf(Size::Fixed(4)) };
        let size = match layout.dynamic_stride {
            0 => Size::Fixed(layout.size),
            _ => Size::Dynamic,
        };
        let leaf = Usage { size, kind: Kind::Leaf { strict: self.rng.one_in(4), ty } };
        if depth == 0 || self.rng.one_in(4) {
            return leaf;
        }
        match &layout.components {
            Components::Scalar => leaf,
            &Components::Elements { stride, ty, length } => {
                self.shaped_elements(size, stride, ty, length, depth - 1)
            }
            Components::Fields(fields) => {
                let mut entries: Vec<Entry> = Vec::new();
                for field in fields {
                    let apart = entries.last().is_none_or(|last| last.offset < field.offset);
                    if apart && !self.rng.one_in(3) {
                        let node = self.shaped(field.ty, depth - 1);
                        entries.push(Entry { offset: field.offset, node });
                    }
                }
                Usage { size, kind: Kind::Map(entries) }
            }
        }
    }

    /// An array over the elements, or a map of some of them.
    fn shaped_elements(
        &mut self,
        size: Size,
        stride: u32,
        ty: u32,
        length: u32,
        depth: u32,
    ) -> Usage {
        if self.rng.one_in(2) {
            let mut element = Box::new(self.shaped(ty, depth));
            if self.rng.one_in(2) {
                element.size = Size::Fixed(stride);
            }
            let size = if length == 0 {
                Size::Dynamic
            } else {
                Size::Fixed(stride.saturating_mul(length))
            };
            return Usage { size, kind: Kind::Array { stride, element } };
        }
        let mut entries = Vec::new();
        for index in 0..=length.min(4) {
            let Some(offset) = stride.checked_mul(index) else { break };
            if self.rng.one_in(2) {
                entries.push(Entry { offset, node: self.shaped(ty, depth) });
            }
        }
        Usage { size, kind: Kind::Map(entries) }
    }

    fn wild_number(&mut self) -> u32 {
        match self.rng.below(if self.high { 8 } else { 6 }) {
            0 => self.rng.below(4) as u32,
            6.. => u32::MAX - self.rng.pick(&[0, 0, 1, 2, 3, 4, 7, 8, 16]),
            _ => 4 * self.rng.below(6) as u32,
        }
    }

    fn wild_size(&mut self) -> Size {
        if self.rng.one_in(5) { Size::Dynamic } else { Size::Fixed(self.wild_number()) }
    }

    /// Anything that is well-formed.
    fn wild(&mut self, depth: u32) -> Usage {
        let size = self.wild_size();
        match self.rng.below(if depth == 0 { 4 } else { 10 }) {
            0 => Usage { size, kind: Kind::Unused },
            1..=3 => self.leaf(size),
            4..=7 => {
                let mut offsets: Vec<u32> =
                    (0..self.rng.below(5)).map(|_| self.wild_number()).collect();
                offsets.sort_unstable();
                offsets.dedup();
                let entry = |offset| Entry { offset, node: self.wild(depth - 1) };
                Usage { size, kind: Kind::Map(offsets.into_iter().map(entry).collect()) }
            }
            _ => {
                let stride = self.wild_number().max(1);
                let element = Box::new(self.wild(depth - 1));
                Usage { size, kind: Kind::Array { stride, element } }
            }
        }
    }

    /// Changes something somewhere in a usage, and keeps it well-formed.
    fn change(&mut self, usage: &mut Usage) {
        let wild_size = self.wild_size();
        let number = self.wild_number();
        match &mut usage.kind {
            Kind::Map(entries) if !entries.is_empty() && !self.rng.one_in(4) => {
                let index = self.rng.below(entries.len());
                let least = if index == 0 { 0 } else { entries[index - 1].offset + 1 };
                let most = entries.get(index + 1).map_or(u32::MAX, |next| next.offset - 1);
                if self.rng.one_in(3) {
                    entries[index].offset = number.clamp(least, most.max(least));
                } else {
                    self.change(&mut entries[index].node);
                }
            }
            Kind::Array { element, .. } if self.rng.one_in(2) => self.change(element),
            Kind::Array { stride, .. } if self.rng.one_in(2) => *stride = number.max(1),
            _ => usage.size = wild_size,
        }
    }
}
