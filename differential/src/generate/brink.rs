//! Usages that stand where an array ends: at the index that is its length, or an element below it,
//! or an element or a byte above it.

use super::tables::types;
use super::usages::Maker;
use crate::usage::{Components, Entry, Field, Kind, Size, Table, Usage};

/// Where an array within a type ends, seen from the type's start, and what its elements are.
#[derive(Clone, Copy)]
struct End {
    at: u32,
    stride: u32,
    element: u32,
}

impl End {
    fn shifted(self, by: u32) -> End {
        End { at: self.at.saturating_add(by), ..self }
    }
}

/// The ends of all arrays with a length within a type, which may be one itself.
fn ends(table: &Table, ty: u32) -> Vec<End> {
    match table.concrete(ty).map(|layout| &layout.components) {
        None | Some(Components::Scalar) => Vec::new(),
        Some(&Components::Elements { stride, ty, length }) => {
            let last = stride.saturating_mul(length.saturating_sub(1));
            let own = End { at: last.saturating_add(stride), stride, element: ty };
            let own = (length != 0).then_some(own);
            let within = ends(table, ty).into_iter().map(|end| end.shifted(last));
            own.into_iter().chain(within).collect()
        }
        Some(Components::Fields(fields)) => {
            let of_field = |field: &Field| {
                let offset = field.offset;
                ends(table, field.ty).into_iter().map(move |end| end.shifted(offset))
            };
            fields.iter().flat_map(of_field).collect()
        }
    }
}

/// A usage that has an array's end somewhere in it, and what is to stand there.
pub struct Brink {
    /// The type that the array is in.
    pub ty: u32,
    pub holder: Usage,
    /// Where in the holder.
    pub at: u32,
    pub node: Usage,
}

impl Maker<'_> {
    /// A leaf of a type in which an array ends, and what is to stand at the end, or not far from it:
    /// mostly something dynamic or of no bytes. If `sound`, both are sound.
    pub fn brink(&mut self, sound: bool) -> Brink {
        let (ty, end) = self.some_end(sound);
        let layout = self.table.concrete(ty).expect("arrays end in concrete types alone");
        let size = match layout.dynamic_stride {
            0 => Size::Fixed(layout.size),
            _ => Size::Dynamic,
        };
        let holder = Usage { size, kind: Kind::Leaf { strict: self.rng.one_in(4), ty } };
        let dynamic = sound || (size == Size::Dynamic && self.rng.one_in(3));
        let least = if dynamic { Size::Dynamic } else { Size::Fixed(0) };
        let element = self.table.concrete(end.element).map_or(1, |layout| layout.size.max(1));
        let (at, size) = match self.rng.below(8) {
            0 => (end.at.saturating_sub(end.stride), least),
            1 => (end.at.saturating_sub(end.stride), Size::Fixed(element)),
            2 => (end.at.saturating_add(end.stride), least),
            3 => (end.at.saturating_add(1), least),
            _ => (end.at, least),
        };
        Brink { ty, holder, at, node: self.at_end(end, size) }
    }

    /// A type and an array's end in it; if `sound`, one that takes dynamic usages.
    fn some_end(&mut self, sound: bool) -> (u32, End) {
        let table = self.table;
        let takes = |ty: &u32| {
            table.concrete(*ty).is_some_and(|layout| !sound || layout.dynamic_stride != 0)
        };
        let of_type = |ty| ends(table, ty).into_iter().map(move |end| (ty, end));
        let all: Vec<_> = types(table).filter(takes).flat_map(of_type).collect();
        self.rng.pick(&all)
    }

    /// Mostly a leaf of the element's type.
    fn at_end(&mut self, end: End, size: Size) -> Usage {
        let kind = Kind::Leaf { strict: self.rng.one_in(6), ty: end.element };
        let leaf = Usage { size, kind };
        match self.rng.below(10) {
            0 => Usage { size, kind: Kind::Unused },
            1 => self.leaf(size),
            2 | 3 => Usage { size, kind: Kind::Map(vec![Entry { offset: 0, node: leaf }]) },
            _ => leaf,
        }
    }

    /// Now and then the same in a map, or, if its size is fixed, in an array's elements.
    pub fn deeper(&mut self, brink: Brink) -> Brink {
        let start = self.rng.pick(&[0, 4, 8]);
        let at = brink.at.saturating_add(start);
        match (self.rng.below(8), brink.holder.size) {
            (0, size) => Brink { holder: in_map(size, start, brink.holder), at, ..brink },
            // What stands there has a map of its own, at the holder's start.
            (1, size) => {
                let node = self.around(size, brink.at, brink.node);
                Brink { holder: in_map(size, start, brink.holder), at: start, node, ..brink }
            }
            (2, Size::Fixed(size)) => {
                let stride = size.saturating_add(4);
                let whole = Size::Fixed(stride.saturating_mul(2));
                let kind = Kind::Array { stride, element: Box::new(brink.holder) };
                let at = brink.at.saturating_add(self.rng.pick(&[0, stride]));
                Brink { holder: Usage { size: whole, kind }, at, ..brink }
            }
            _ => brink,
        }
    }

    /// A map of this size with the node at an offset, and perhaps a leaf in front of it.
    fn around(&mut self, size: Size, at: u32, node: Usage) -> Usage {
        let mut entries = vec![Entry { offset: at, node }];
        let front = self.rng.pick(&[1, 4, 4, 8]);
        if front <= at && self.rng.one_in(2) {
            entries.insert(0, Entry { offset: 0, node: self.leaf(Size::Fixed(front)) });
        }
        Usage { size, kind: Kind::Map(entries) }
    }

    /// The holder, and what stands at the end in a map as large, in either order.
    pub fn pair(&mut self, brink: Brink) -> Vec<Usage> {
        let brink = self.deeper(brink);
        let map = self.around(brink.holder.size, brink.at, brink.node);
        let mut pair = vec![brink.holder, map];
        if self.rng.one_in(2) {
            pair.reverse();
        }
        pair
    }

    /// These two, and perhaps some more that are like one of them.
    pub fn several(&mut self, brink: Brink) -> Vec<Usage> {
        let mut usages = self.pair(brink);
        for _ in 0..self.rng.below(4) {
            let like = self.rng.below(usages.len());
            let next = self.kin(&usages[like].clone());
            usages.insert(self.rng.below(like + 2), next);
        }
        usages
    }

    /// What stands at the end and where: by itself, or in a map that starts lower.
    pub fn standing(&mut self, brink: &Brink) -> (u32, Usage) {
        let start = match self.rng.below(4) {
            0 | 1 => return (brink.at, brink.node.clone()),
            2 => 0,
            _ => brink.at / 2,
        };
        let size = match brink.holder.size {
            Size::Fixed(size) => Size::Fixed(size.saturating_sub(start)),
            Size::Dynamic => Size::Dynamic,
        };
        (start, self.around(size, brink.at - start, brink.node.clone()))
    }
}

/// A map as long as what stands in it at this offset.
fn in_map(size: Size, offset: u32, node: Usage) -> Usage {
    let size = match size {
        Size::Fixed(size) => Size::Fixed(size.saturating_add(offset)),
        Size::Dynamic => Size::Dynamic,
    };
    Usage { size, kind: Kind::Map(vec![Entry { offset, node }]) }
}
