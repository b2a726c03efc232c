//! Usages and lists of usages as bytes, and back.

use crate::bytes::{Reader, put_count, put_four};
use crate::calls::MOST_NODES;
use crate::error::{ByteFault, BytesError, ValueError};
use crate::shapes::Handle;
use crate::usage::{QPtrMemUsage, QPtrMemUsageKind, QPtrUsage, Step, Type, Walk};
use std::collections::BTreeMap;
use std::num::NonZeroU32;

const UNUSED: u8 = 0x00;
const STRICTLY_TYPED: u8 = 0x01;
const DIRECT_ACCESS: u8 = 0x02;
const OFFSET_BASE: u8 = 0x03;
const DYN_OFFSET_BASE: u8 = 0x04;
const OPAQUE: u8 = 0x08;
const BUFFER: u8 = 0x09;
const MEMORY: u8 = 0x0a;
const LIST: u8 = 0x0b;

impl QPtrUsage {
    /// The usage as a top's bytes.
    ///
    /// ```
    /// let opaque: usage_merger::QPtrUsage = "Opaque 4".parse()?;
    /// assert_eq!(opaque.to_bytes()?, [8, 4, 0, 0, 0]);
    /// # Ok::<(), Box<dyn std::error::Error>>(())
    /// ```
    ///
    /// # Errors
    /// If a map has more entries than a count can say.
    pub fn to_bytes(&self) -> Result<Vec<u8>, ValueError> {
        let mut bytes = Vec::new();
        match self {
            QPtrUsage::Handles(Handle::Opaque(ty)) => {
                bytes.push(OPAQUE);
                put_four(&mut bytes, ty.0);
            }
            QPtrUsage::Handles(Handle::Buffer(usage)) => {
                bytes.push(BUFFER);
                put_nodes(&mut bytes, usage)?;
            }
            QPtrUsage::Memory(usage) => return usage.to_bytes(),
        }
        Ok(bytes)
    }

    /// Reads a top.
    ///
    /// # Errors
    /// If the bytes are not exactly one top, or nest deeper than 512 levels.
    pub fn from_bytes(bytes: &[u8]) -> Result<QPtrUsage, BytesError> {
        let mut bytes = Reader::of(bytes);
        let usage = match bytes.byte()? {
            OPAQUE => QPtrUsage::Handles(Handle::Opaque(Type(bytes.four()?))),
            BUFFER => QPtrUsage::Handles(Handle::Buffer(nodes(&mut bytes)?)),
            MEMORY => QPtrUsage::Memory(nodes(&mut bytes)?),
            command => return Err(bytes.fault(1, ByteFault::Command(command))),
        };
        bytes.whole(usage)
    }
}

impl QPtrMemUsage {
    /// The usage as the bytes of a Memory top.
    ///
    /// ```
    /// use usage_merger::QPtrMemUsage;
    /// let bytes = QPtrMemUsage::UNUSED.to_bytes()?;
    /// assert_eq!(bytes, [0x0a, 0, 1, 0, 0, 0, 0]);
    /// assert_eq!(QPtrMemUsage::from_bytes(&bytes), Ok(QPtrMemUsage::UNUSED));
    /// # Ok::<(), usage_merger::ValueError>(())
    /// ```
    ///
    /// # Errors
    /// If a map has more entries than a count can say.
    pub fn to_bytes(&self) -> Result<Vec<u8>, ValueError> {
        let mut bytes = vec![MEMORY];
        put_nodes(&mut bytes, self)?;
        Ok(bytes)
    }

    /// Reads a Memory top.
    ///
    /// # Errors
    /// If the bytes are not exactly one Memory top, or nest deeper than 512 levels.
    pub fn from_bytes(bytes: &[u8]) -> Result<QPtrMemUsage, BytesError> {
        let mut bytes = Reader::of(bytes);
        let command = bytes.byte()?;
        if command != MEMORY {
            return Err(bytes.fault(1, ByteFault::Command(command)));
        }
        let usage = nodes(&mut bytes)?;
        bytes.whole(usage)
    }
}

/// Usages as the bytes of a list. An empty list has bytes too, and the library refuses them.
///
/// ```
/// use usage_merger::{QPtrMemUsage, list_from_bytes, list_to_bytes};
/// let list = vec![QPtrMemUsage::UNUSED, "D4,0".parse()?];
/// let bytes = list_to_bytes(&list)?;
/// assert_eq!(bytes[..4], [0x0b, 2, 0, 0]);
/// assert_eq!(list_from_bytes(&bytes)?, list);
/// # Ok::<(), Box<dyn std::error::Error>>(())
/// ```
///
/// # Errors
/// If there are more usages, or a map has more entries, than a count can say.
pub fn list_to_bytes<'a>(
    usages: impl IntoIterator<Item = &'a QPtrMemUsage>,
) -> Result<Vec<u8>, ValueError> {
    let mut bytes = vec![LIST, 0, 0];
    let mut count: u16 = 0;
    for usage in usages {
        count = count.checked_add(1).ok_or(ValueError::Nodes(usize::from(u16::MAX) + 1))?;
        put_nodes(&mut bytes, usage)?;
    }
    bytes[1..3].copy_from_slice(&count.to_le_bytes());
    Ok(bytes)
}

/// Reads a list.
///
/// # Errors
/// If the bytes are not exactly one list of at least one usage, or nest deeper than 512 levels.
pub fn list_from_bytes(bytes: &[u8]) -> Result<Vec<QPtrMemUsage>, BytesError> {
    let mut bytes = Reader::of(bytes);
    let command = bytes.byte()?;
    if command != LIST {
        return Err(bytes.fault(1, ByteFault::Command(command)));
    }
    let count = bytes.two()?;
    if count == 0 {
        return Err(bytes.fault(2, ByteFault::EmptyList));
    }
    let mut list = Vec::new();
    for _ in 0..count {
        list.push(nodes(&mut bytes)?);
    }
    bytes.whole(list)
}

fn put_nodes(bytes: &mut Vec<u8>, usage: &QPtrMemUsage) -> Result<(), ValueError> {
    for step in Walk::of(usage) {
        let Step::Node { offset, usage } = step else { continue };
        if let Some(offset) = offset {
            put_four(bytes, offset);
        }
        put_head(bytes, usage)?;
    }
    Ok(())
}

/// A node without what follows in it.
fn put_head(bytes: &mut Vec<u8>, usage: &QPtrMemUsage) -> Result<(), ValueError> {
    bytes.push(match usage.kind {
        QPtrMemUsageKind::Unused => UNUSED,
        QPtrMemUsageKind::StrictlyTyped(_) => STRICTLY_TYPED,
        QPtrMemUsageKind::DirectAccess(_) => DIRECT_ACCESS,
        QPtrMemUsageKind::OffsetBase(_) => OFFSET_BASE,
        QPtrMemUsageKind::DynOffsetBase { .. } => DYN_OFFSET_BASE,
    });
    bytes.push(u8::from(usage.max_size.is_some()));
    put_four(bytes, usage.max_size.unwrap_or(0));
    match &usage.kind {
        QPtrMemUsageKind::Unused => {}
        QPtrMemUsageKind::StrictlyTyped(ty) | QPtrMemUsageKind::DirectAccess(ty) => {
            put_four(bytes, ty.0);
        }
        QPtrMemUsageKind::OffsetBase(entries) => {
            put_count(bytes, entries.len(), ValueError::Entries)?;
        }
        QPtrMemUsageKind::DynOffsetBase { stride, .. } => put_four(bytes, stride.get()),
    }
    Ok(())
}

/// A map or an array that is being read.
enum Open {
    Map { size: Option<u32>, entries: BTreeMap<u32, QPtrMemUsage>, offset: u32, left: u16 },
    Array { size: Option<u32>, stride: NonZeroU32 },
}

/// Reads a node with all that is in it. What is open stands in a list, so that reading costs no
/// stack; the limit is there because dropping the value does.
fn nodes(bytes: &mut Reader<'_>) -> Result<QPtrMemUsage, BytesError> {
    let mut open = Vec::new();
    loop {
        if open.len() >= MOST_NODES {
            return Err(bytes.fault(0, ByteFault::TooDeep));
        }
        let Some(usage) = head(bytes, &mut open)? else { continue };
        if let Some(root) = close(bytes, &mut open, usage)? {
            return Ok(root);
        }
    }
}

/// Reads a node's own bytes: the node if nothing follows in it, else it is opened.
fn head(bytes: &mut Reader<'_>, open: &mut Vec<Open>) -> Result<Option<QPtrMemUsage>, BytesError> {
    let command = bytes.byte()?;
    if command > DYN_OFFSET_BASE {
        return Err(bytes.fault(1, ByteFault::Command(command)));
    }
    let max_size = size(bytes)?;
    let kind = match command {
        UNUSED => QPtrMemUsageKind::Unused,
        STRICTLY_TYPED => QPtrMemUsageKind::StrictlyTyped(Type(bytes.four()?)),
        DIRECT_ACCESS => QPtrMemUsageKind::DirectAccess(Type(bytes.four()?)),
        OFFSET_BASE => match bytes.two()? {
            0 => QPtrMemUsageKind::OffsetBase(BTreeMap::new()),
            left => {
                let (entries, offset) = (BTreeMap::new(), bytes.four()?);
                open.push(Open::Map { size: max_size, entries, offset, left });
                return Ok(None);
            }
        },
        _ => {
            open.push(Open::Array { size: max_size, stride: bytes.stride()? });
            return Ok(None);
        }
    };
    Ok(Some(QPtrMemUsage { max_size, kind }))
}

/// Puts a node that is whole into what is open around it, as far as that becomes whole, too. Gives
/// back the root when nothing is open any more.
fn close(
    bytes: &mut Reader<'_>,
    open: &mut Vec<Open>,
    mut usage: QPtrMemUsage,
) -> Result<Option<QPtrMemUsage>, BytesError> {
    while let Some(around) = open.pop() {
        usage = match around {
            Open::Array { size, stride } => {
                let kind = QPtrMemUsageKind::DynOffsetBase { element: Box::new(usage), stride };
                QPtrMemUsage { max_size: size, kind }
            }
            Open::Map { size, mut entries, offset, left } => {
                entries.insert(offset, usage);
                if left > 1 {
                    let offset = next_offset(bytes, offset)?;
                    open.push(Open::Map { size, entries, offset, left: left - 1 });
                    return Ok(None);
                }
                QPtrMemUsage { max_size: size, kind: QPtrMemUsageKind::OffsetBase(entries) }
            }
        };
    }
    Ok(Some(usage))
}

fn next_offset(bytes: &mut Reader<'_>, last: u32) -> Result<u32, BytesError> {
    let offset = bytes.four()?;
    if offset > last { Ok(offset) } else { Err(bytes.fault(4, ByteFault::Offset(offset))) }
}

fn size(bytes: &mut Reader<'_>) -> Result<Option<u32>, BytesError> {
    let flag = bytes.byte()?;
    if flag > 1 {
        return Err(bytes.fault(1, ByteFault::Flag(flag)));
    }
    match (flag, bytes.four()?) {
        (1, number) => Ok(Some(number)),
        (_, 0) => Ok(None),
        (_, number) => Err(bytes.fault(4, ByteFault::DynamicNumber(number))),
    }
}

#[cfg(test)]
mod tests {
    use super::*;

    fn usage(text: &str) -> QPtrMemUsage {
        text.parse().unwrap()
    }

    fn nested(levels: usize) -> QPtrMemUsage {
        let stride = NonZeroU32::MIN;
        (1..levels).fold(usage("U1"), |usage, _| QPtrMemUsage {
            max_size: Some(1),
            kind: QPtrMemUsageKind::DynOffsetBase { element: Box::new(usage), stride },
        })
    }

    /// Takes a value apart without recursion.
    fn drop_deep(mut usage: QPtrMemUsage) {
        while let QPtrMemUsageKind::DynOffsetBase { element, .. } = usage.kind {
            usage = *element;
        }
    }

    #[test]
    fn every_kind_of_node_has_its_bytes() {
        let bytes = |text: &str| usage(text).to_bytes().unwrap();
        assert_eq!(bytes("U*"), [10, 0, 0, 0, 0, 0, 0]);
        assert_eq!(bytes("S4,7"), [10, 1, 1, 4, 0, 0, 0, 7, 0, 0, 0]);
        assert_eq!(bytes("D4,7"), [10, 2, 1, 4, 0, 0, 0, 7, 0, 0, 0]);
        let map = [10, 3, 1, 8, 0, 0, 0, 1, 0, 4, 0, 0, 0, 0, 1, 1, 0, 0, 0];
        assert_eq!(bytes("O8[4:U1]"), map);
        assert_eq!(bytes("A8,2,U*"), [10, 4, 1, 8, 0, 0, 0, 2, 0, 0, 0, 0, 0, 0, 0, 0, 0]);
    }

    #[test]
    fn usages_read_back() {
        let texts =
            ["U0", "O*[]", "O9[0:O4[] 4:A4,1,O1[0:S1,3] 8:D*,0]", "A*,9,A9,3,O3[1:O2[1:U1]]"];
        for text in texts {
            let bytes = usage(text).to_bytes().unwrap();
            assert_eq!(QPtrMemUsage::from_bytes(&bytes), Ok(usage(text)));
            for cut in 0..bytes.len() {
                let fault = QPtrMemUsage::from_bytes(&bytes[..cut]).unwrap_err().fault;
                assert_eq!(fault, ByteFault::EarlyEnd);
            }
        }
    }

    fn fault(bytes: &[u8]) -> (usize, ByteFault) {
        let BytesError { position, fault } = QPtrMemUsage::from_bytes(bytes).unwrap_err();
        (position, fault)
    }

    #[test]
    fn faults_are_found_where_they_are() {
        assert_eq!(fault(&[]), (0, ByteFault::EarlyEnd));
        assert_eq!(fault(&[9]), (0, ByteFault::Command(9)));
        assert_eq!(fault(&[10, 5]), (1, ByteFault::Command(5)));
        assert_eq!(fault(&[10, 0, 2]), (2, ByteFault::Flag(2)));
        assert_eq!(fault(&[10, 0, 0, 1, 0, 0, 0]), (3, ByteFault::DynamicNumber(1)));
        assert_eq!(fault(&[10, 0, 0, 0, 0, 0, 0, 0]), (7, ByteFault::LeftOver));
        assert_eq!(fault(&[10, 4, 1, 1, 0, 0, 0, 0, 0, 0, 0]), (7, ByteFault::Stride));
        let mut twice = usage("O8[4:U1 5:U1]").to_bytes().unwrap();
        twice[19] = 4;
        assert_eq!(fault(&twice), (19, ByteFault::Offset(4)));
        let list = list_from_bytes(&[11, 0, 0]).unwrap_err();
        assert_eq!(list, BytesError { position: 1, fault: ByteFault::EmptyList });
        assert!(list_from_bytes(&[10, 1, 0]).is_err());
        assert!(QPtrUsage::from_bytes(&[11]).is_err());
    }

    #[test]
    fn what_cannot_be_counted_is_refused() {
        let entries = |count: u32| QPtrMemUsage {
            max_size: None,
            kind: QPtrMemUsageKind::OffsetBase((0..count).map(|at| (at, usage("U1"))).collect()),
        };
        assert!(entries(65_535).to_bytes().is_ok());
        assert_eq!(entries(65_536).to_bytes(), Err(ValueError::Entries(65_536)));
        let unused = QPtrMemUsage::UNUSED;
        assert!(list_to_bytes(std::iter::repeat_n(&unused, 65_535)).is_ok());
        assert_eq!(list_to_bytes(std::iter::repeat(&unused)), Err(ValueError::Nodes(65_536)));
    }

    #[test]
    fn depth_costs_no_stack_when_writing_and_has_a_limit_when_reading() {
        let deepest = nested(512);
        let bytes = deepest.to_bytes().unwrap();
        assert_eq!(QPtrMemUsage::from_bytes(&bytes), Ok(deepest));
        let deep = nested(1_000_000);
        assert_eq!((deep.nodes(), deep.to_string().len()), (1_000_000, 4_999_997));
        let bytes = deep.to_bytes().unwrap();
        assert_eq!(fault(&bytes), (1 + 512 * 10, ByteFault::TooDeep));
        drop_deep(deep);
    }
}
