//! Random numbers, usages, tables and bytes; the same seed gives the same run everywhere.

mod rng;

pub use rng::Rng;
use std::num::NonZeroU32;
use usage_merger::shapes::Handle;
use usage_merger::{
    Choices, Components, Field, MemTypeLayout, QPtrMemUsage, QPtrMemUsageKind, QPtrUsage, Table,
    Type, TypeLayout,
};

impl Rng {
    /// Small numbers most of the time, so that usages meet; sometimes one near 2^32.
    pub fn number(&mut self) -> u32 {
        match self.below(40) {
            0 => self.draw() as u32,
            1 => u32::MAX - self.below(9) as u32,
            _ => self.pick(&[0, 1, 2, 4, 4, 4, 8, 8, 12, 16, 16, 24, 32]),
        }
    }

    fn stride(&mut self) -> NonZeroU32 {
        NonZeroU32::new(self.number()).unwrap_or(NonZeroU32::MIN)
    }

    fn size(&mut self) -> Option<u32> {
        if self.one_in(8) { None } else { Some(self.number()) }
    }

    fn ty(&mut self) -> Type {
        Type(if self.one_in(60) { self.number() } else { self.below(6) as u32 })
    }

    /// A usage of any kind, sound by luck alone.
    pub fn usage(&mut self, levels: usize) -> QPtrMemUsage {
        let kind = match self.below(if levels == 0 { 4 } else { 8 }) {
            0 => QPtrMemUsageKind::Unused,
            1 => QPtrMemUsageKind::StrictlyTyped(self.ty()),
            2 | 3 => QPtrMemUsageKind::DirectAccess(self.ty()),
            4 => {
                let element = Box::new(self.usage(levels - 1));
                QPtrMemUsageKind::DynOffsetBase { element, stride: self.stride() }
            }
            _ => {
                let mut entry = || (self.number(), self.usage(levels - 1));
                let entries = [entry(), entry(), entry()];
                let kept = self.below(4);
                QPtrMemUsageKind::OffsetBase(entries.into_iter().take(kept).collect())
            }
        };
        QPtrMemUsage { max_size: self.size(), kind }
    }

    /// A usage that is sound, of this size, over types of 4 bytes.
    pub fn sound(&mut self, size: u32, levels: usize) -> QPtrMemUsage {
        let ty = self.ty();
        let kind = match self.below(if levels == 0 || size < 4 { 3 } else { 7 }) {
            0 => QPtrMemUsageKind::Unused,
            _ if size == 0 => QPtrMemUsageKind::Unused,
            1 => QPtrMemUsageKind::StrictlyTyped(ty),
            2 => QPtrMemUsageKind::DirectAccess(ty),
            3 => {
                let stride = self.pick(&[4, 8]);
                let element = Box::new(self.sound(stride, levels - 1));
                let stride = NonZeroU32::new(stride).unwrap_or(NonZeroU32::MIN);
                QPtrMemUsageKind::DynOffsetBase { element, stride }
            }
            _ => {
                let mut entries = std::collections::BTreeMap::new();
                let mut offset = 0;
                while offset + 4 <= size {
                    let length = self.pick(&[4, 4, 8]).min(size - offset);
                    if !self.one_in(3) {
                        entries.insert(offset, self.sound(length, levels - 1));
                    }
                    offset += length;
                }
                QPtrMemUsageKind::OffsetBase(entries)
            }
        };
        QPtrMemUsage { max_size: Some(size), kind }
    }

    /// A chain of maps and arrays with so many levels.
    pub fn deep(&mut self, levels: usize) -> QPtrMemUsage {
        let mut usage = self.usage(0);
        for _ in 1..levels {
            let kind = match self.below(2) {
                0 => QPtrMemUsageKind::OffsetBase([(self.number(), usage)].into()),
                _ => QPtrMemUsageKind::DynOffsetBase {
                    element: Box::new(usage),
                    stride: self.stride(),
                },
            };
            usage = QPtrMemUsage { max_size: self.size(), kind };
        }
        usage
    }

    pub fn top(&mut self, levels: usize) -> QPtrUsage {
        match self.below(8) {
            0 => QPtrUsage::Handles(Handle::Opaque(self.ty())),
            1 => QPtrUsage::Handles(Handle::Buffer(self.usage(levels))),
            _ => QPtrUsage::Memory(self.usage(levels)),
        }
    }

    /// Any choices, each as likely as not.
    pub fn choices(&mut self) -> Choices {
        Choices::of(self.draw() as u32)
    }

    fn record(&mut self) -> TypeLayout {
        let components = match self.below(6) {
            0 => return TypeLayout::Handle,
            1 => return TypeLayout::Failed,
            2 | 3 => Components::Scalar,
            4 => Components::Elements {
                stride: self.stride(),
                elem: self.ty(),
                fixed_len: NonZeroU32::new(self.number()),
            },
            _ => {
                let field = |rng: &mut Rng| Field { offset: rng.number(), ty: rng.ty() };
                let count = self.below(4);
                Components::Fields((0..count).map(|_| field(self)).collect())
            }
        };
        let dyn_unit_stride = if self.one_in(6) { Some(self.stride()) } else { None };
        TypeLayout::Concrete(MemTypeLayout { size: self.number(), dyn_unit_stride, components })
    }

    /// A table, accepted or not.
    pub fn table(&mut self) -> Table {
        let count = self.below(8);
        Table { records: (0..count).map(|_| self.record()).collect() }
    }

    pub fn bytes(&mut self, longest: usize) -> Vec<u8> {
        let length = self.below(longest + 1);
        let low = self.one_in(2);
        (0..length).map(|_| self.draw() as u8 & if low { 0x0f } else { 0xff }).collect()
    }

    /// The same bytes with a few changed, added, removed or cut off.
    pub fn damaged(&mut self, mut bytes: Vec<u8>) -> Vec<u8> {
        for _ in 0..self.below(4) {
            let at = self.below(bytes.len() + 1);
            match self.below(5) {
                0 => bytes.truncate(at),
                1 => bytes.insert(at, self.draw() as u8),
                2 if at < bytes.len() => drop(bytes.remove(at)),
                _ if at < bytes.len() => bytes[at] = self.pick(&[0, 1, 2, 3, 4, 8, 10, 11, 255]),
                _ => {}
            }
        }
        bytes
    }

    /// A text of the notation's letters, or of any.
    pub fn text(&mut self, longest: usize) -> String {
        let letters = ["U", "D", "S", "O", "A", "*", "[", "]", ":", ",", " ", "0", "4", "8", "16"];
        let more =
            ["scalar", "fields", "{", "}", ";", "Opaque", "Buffer", "-", "\u{e9}", "\n", "+"];
        let all: Vec<&str> = letters.iter().chain(&more).copied().collect();
        let length = self.below(longest + 1);
        let plain = self.one_in(2);
        (0..length).map(|_| if plain { self.pick(&letters) } else { self.pick(&all) }).collect()
    }
}
