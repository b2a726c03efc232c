//! "Sound usages".

use super::faults::{Fault, Faults};
use crate::usage::{Entry, Kind, Size, Usage};

/// Whether the usage is sound, at all levels.
pub fn is_sound(usage: &Usage, faults: Faults) -> bool {
    Soundness(faults).node(usage)
}

struct Soundness(Faults);

impl Soundness {
    fn node(&self, usage: &Usage) -> bool {
        if self.0.on(Fault::SoundAlways) || self.0.on(Fault::SoundNever) {
            return self.0.on(Fault::SoundAlways);
        }
        (usage.kind == Kind::Unused || self.has_room(usage.size))
            && match &usage.kind {
                Kind::Unused | Kind::Leaf { .. } => true,
                Kind::Map(entries) => self.entries(usage.size, entries),
                Kind::Array { stride, element } => self.element(*stride, element),
            }
    }

    /// Dynamic, or at least 1.
    fn has_room(&self, size: Size) -> bool {
        size != Size::Fixed(0) || self.0.on(Fault::SoundZero)
    }

    /// Each entry starts no earlier than the one before it ends, and ends by the map's end.
    fn entries(&self, map: Size, entries: &[Entry]) -> bool {
        let mut free_from = Some(0);
        for entry in entries {
            let unused = entry.node.kind == Kind::Unused && self.0.on(Fault::SoundUnusedEntry);
            let room = self.has_room(entry.node.size) || unused;
            let starts_late = free_from.is_some_and(|end| end <= u64::from(entry.offset))
                || (free_from.is_some() && self.0.on(Fault::SoundOverlap))
                || (free_from.is_none() && self.0.on(Fault::SoundDynamicNotLast));
            let below = self.0.on(Fault::SoundOneLevel) || self.node(&entry.node);
            if !room || !starts_late || !below || !self.ends_within(map, entry) {
                return false;
            }
            free_from = match entry.node.size {
                Size::Fixed(size) => Some(u64::from(entry.offset) + u64::from(size)),
                Size::Dynamic => None,
            };
        }
        true
    }

    fn ends_within(&self, map: Size, entry: &Entry) -> bool {
        match (map, entry.node.size) {
            (Size::Dynamic, Size::Dynamic) => true,
            (Size::Fixed(_), Size::Dynamic) => self.0.on(Fault::SoundDynamicInFixed),
            (map, Size::Fixed(size)) => {
                let end = u64::from(entry.offset) + u64::from(size);
                let by_bits = end <= u64::from(u32::MAX) || self.0.on(Fault::SoundPastBits);
                let by_map = match map {
                    Size::Fixed(map) => end <= u64::from(map),
                    Size::Dynamic => true,
                };
                by_bits && (by_map || self.0.on(Fault::SoundPastMap))
            }
        }
    }

    fn element(&self, stride: u32, element: &Usage) -> bool {
        let short = self.0.on(Fault::SoundShortElement) && element.size < Size::Fixed(stride);
        let below = self.0.on(Fault::SoundOneLevel) || self.node(element);
        (element.size == Size::Fixed(stride) || short) && below
    }
}
