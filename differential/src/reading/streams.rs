//! "Streams": usages from bytes and back.
//!
//! Reading gives `None` where the stream rules are broken; which refusal that is, the call knows.

use super::bytes::{Reader, put_count, put_four};
use super::faults::{Fault, Faults};
use crate::usage::{Entry, Kind, Size, Top, Usage};

pub const UNUSED: u8 = 0x00;
pub const STRICTLY_TYPED: u8 = 0x01;
pub const DIRECT_ACCESS: u8 = 0x02;
pub const MAP: u8 = 0x03;
pub const ARRAY: u8 = 0x04;
pub const OPAQUE: u8 = 0x08;
pub const BUFFER: u8 = 0x09;
pub const MEMORY: u8 = 0x0a;
pub const LIST: u8 = 0x0b;

/// Reads one stream of a top.
pub fn read_top(bytes: &[u8], faults: Faults) -> Option<Top> {
    whole(bytes, faults, |stream| match stream.bytes.byte()? {
        OPAQUE => Some(Top::Opaque(stream.bytes.four()?)),
        BUFFER => Some(Top::Buffer(stream.node()?)),
        MEMORY => Some(Top::Memory(stream.node()?)),
        _ => None,
    })
}

/// Reads one stream of a Memory top.
pub fn read_memory(bytes: &[u8], faults: Faults) -> Option<Usage> {
    whole(bytes, faults, |stream| match stream.bytes.byte()? {
        MEMORY => stream.node(),
        BUFFER if faults.on(Fault::StreamTops) => stream.node(),
        _ => None,
    })
}

/// Reads one list.
pub fn read_list(bytes: &[u8], faults: Faults) -> Option<Vec<Usage>> {
    whole(bytes, faults, |stream| match stream.bytes.byte()? {
        LIST => stream.list(),
        MEMORY if faults.on(Fault::StreamTops) => Some(vec![stream.node()?]),
        _ => None,
    })
}

/// Reads something that must end where the bytes end.
fn whole<T>(
    bytes: &[u8],
    faults: Faults,
    read: impl FnOnce(&mut Stream<'_>) -> Option<T>,
) -> Option<T> {
    let mut stream = Stream { bytes: Reader::new(bytes), faults };
    let value = read(&mut stream)?;
    (stream.bytes.is_empty() || faults.on(Fault::StreamLeftOver)).then_some(value)
}

struct Stream<'a> {
    bytes: Reader<'a>,
    faults: Faults,
}

impl Stream<'_> {
    fn node(&mut self) -> Option<Usage> {
        let command = self.bytes.byte()?;
        if command > ARRAY {
            return None;
        }
        let size = self.size()?;
        let kind = match command {
            UNUSED => Kind::Unused,
            MAP => Kind::Map(self.entries()?),
            ARRAY => self.array()?,
            _ => Kind::Leaf { strict: command == STRICTLY_TYPED, ty: self.bytes.four()? },
        };
        Some(Usage { size, kind })
    }

    fn size(&mut self) -> Option<Size> {
        let (flag, number) = (self.bytes.byte()?, self.bytes.four()?);
        match (flag, number) {
            (1, _) => Some(Size::Fixed(number)),
            (0, 0) => Some(Size::Dynamic),
            (0, _) if self.faults.on(Fault::StreamDynamicBytes) => Some(Size::Dynamic),
            (2.., _) if self.faults.on(Fault::StreamFlag) => Some(Size::Fixed(number)),
            _ => None,
        }
    }

    fn entries(&mut self) -> Option<Vec<Entry>> {
        let count = self.bytes.two()?;
        let mut entries: Vec<Entry> = Vec::new();
        for _ in 0..count {
            let offset = self.bytes.four()?;
            let last = entries.last().map(|entry| entry.offset);
            let ascends = last.is_none_or(|last| last < offset);
            if !ascends && !self.faults.on(Fault::StreamEqualOffsets) {
                return None;
            }
            entries.push(Entry { offset, node: self.node()? });
        }
        Some(entries)
    }

    fn array(&mut self) -> Option<Kind> {
        let stride = self.bytes.four()?;
        if stride == 0 {
            return None;
        }
        Some(Kind::Array { stride, element: Box::new(self.node()?) })
    }

    fn list(&mut self) -> Option<Vec<Usage>> {
        let count = self.bytes.two()?;
        if count == 0 && !self.faults.on(Fault::StreamEmptyList) {
            return None;
        }
        (0..count).map(|_| self.node()).collect()
    }
}

pub fn write_top(top: &Top) -> Vec<u8> {
    let mut bytes = Vec::new();
    match top {
        Top::Opaque(ty) => {
            bytes.push(OPAQUE);
            put_four(&mut bytes, *ty);
        }
        Top::Buffer(node) => {
            bytes.push(BUFFER);
            put_node(&mut bytes, node);
        }
        Top::Memory(node) => return write_memory(node),
    }
    bytes
}

pub fn write_memory(node: &Usage) -> Vec<u8> {
    let mut bytes = vec![MEMORY];
    put_node(&mut bytes, node);
    bytes
}

pub fn write_list(nodes: &[Usage]) -> Vec<u8> {
    let mut bytes = vec![LIST];
    put_count(&mut bytes, nodes.len());
    nodes.iter().for_each(|node| put_node(&mut bytes, node));
    bytes
}

fn put_node(bytes: &mut Vec<u8>, node: &Usage) {
    bytes.push(match node.kind {
        Kind::Unused => UNUSED,
        Kind::Leaf { strict: true, .. } => STRICTLY_TYPED,
        Kind::Leaf { strict: false, .. } => DIRECT_ACCESS,
        Kind::Map(_) => MAP,
        Kind::Array { .. } => ARRAY,
    });
    let (flag, number) = match node.size {
        Size::Fixed(number) => (1, number),
        Size::Dynamic => (0, 0),
    };
    bytes.push(flag);
    put_four(bytes, number);
    match &node.kind {
        Kind::Unused => {}
        Kind::Leaf { ty, .. } => put_four(bytes, *ty),
        Kind::Map(entries) => {
            put_count(bytes, entries.len());
            for entry in entries {
                put_four(bytes, entry.offset);
                put_node(bytes, &entry.node);
            }
        }
        Kind::Array { stride, element } => {
            put_four(bytes, *stride);
            put_node(bytes, element);
        }
    }
}
