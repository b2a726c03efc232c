//! Usages as values, under the source's names.

use std::collections::{BTreeMap, btree_map};
use std::num::NonZeroU32;

/// A type: its number in the [`Table`](crate::Table).
#[derive(Clone, Copy, Debug, PartialEq, Eq, PartialOrd, Ord, Hash)]
pub struct Type(pub u32);

/// How a pointer is used.
///
/// The source's `Handle::Buffer` also names an address space, which is always the same one there;
/// it is left out.
///
/// ```
/// use usage_merger::{QPtrUsage, shapes::Handle};
/// let buffer: QPtrUsage = "Buffer O8[0:D4,0]".parse()?;
/// assert!(matches!(buffer, QPtrUsage::Handles(Handle::Buffer(_))));
/// # Ok::<(), usage_merger::NotationError>(())
/// ```
#[derive(Clone, Debug, PartialEq, Eq, Hash)]
pub enum QPtrUsage {
    /// Used to access handles.
    Handles(shapes::Handle<QPtrMemUsage>),
    /// Used to access memory.
    Memory(QPtrMemUsage),
}

/// What a handle stands for.
pub mod shapes {
    use super::Type;

    /// A handle, or an array of them.
    #[derive(Clone, Copy, Debug, PartialEq, Eq, Hash)]
    pub enum Handle<BL> {
        /// A resource of this type.
        Opaque(Type),
        /// A buffer, with what is known of its data.
        Buffer(BL),
    }
}

/// How memory is used through a pointer: a tree of nodes.
///
/// Values may nest as deeply as memory allows. No function of this crate recurses over them, but
/// dropping, cloning, comparing and debugging a value do, as Rust's own code for them is recursive.
/// What this crate reads or merges has at most 512 levels; dropping those takes under 100 KiB of
/// stack in a release build, and under 500 KiB where nothing is optimised.
///
/// ```
/// use std::collections::BTreeMap;
/// use usage_merger::{QPtrMemUsage, QPtrMemUsageKind, Type};
///
/// let four_bytes = QPtrMemUsage {
///     max_size: Some(4),
///     kind: QPtrMemUsageKind::DirectAccess(Type(0)),
/// };
/// let at_4 = QPtrMemUsage {
///     max_size: Some(8),
///     kind: QPtrMemUsageKind::OffsetBase(BTreeMap::from([(4, four_bytes)])),
/// };
/// assert_eq!(at_4.to_string(), "O8[4:D4,0]");
/// assert_eq!(at_4.nodes(), 2);
/// assert_eq!("O8[4:D4,0]".parse(), Ok(at_4));
/// ```
#[derive(Clone, Debug, PartialEq, Eq, Hash)]
pub struct QPtrMemUsage {
    /// How far accesses may reach, if there is a limit; `None` is dynamic.
    pub max_size: Option<u32>,
    /// What the accesses are.
    pub kind: QPtrMemUsageKind,
}

/// What a memory node is, apart from its size.
#[derive(Clone, Debug, PartialEq, Eq, Hash)]
pub enum QPtrMemUsageKind {
    /// Not used.
    Unused,
    /// Used as a pointer to this very type.
    StrictlyTyped(Type),
    /// Loaded or stored as this type, which may be taken apart.
    DirectAccess(Type),
    /// A base for constant offsets: a map from offset to usage.
    OffsetBase(BTreeMap<u32, QPtrMemUsage>),
    /// A base for dynamic offsets: an array with one usage for all elements.
    DynOffsetBase {
        /// The usage of each element.
        element: Box<QPtrMemUsage>,
        /// The bytes from one element to the next.
        stride: NonZeroU32,
    },
}

impl QPtrMemUsage {
    /// Unused, of size 0.
    pub const UNUSED: Self = Self { max_size: Some(0), kind: QPtrMemUsageKind::Unused };

    /// How many nodes the usage has at all levels, itself included.
    pub fn nodes(&self) -> usize {
        Walk::of(self).filter(|step| matches!(step, Step::Node { .. })).count()
    }
}

impl QPtrUsage {
    /// How many nodes the usage has; a handle or a buffer is not a node, what a buffer holds is.
    pub fn nodes(&self) -> usize {
        self.mem().map_or(0, QPtrMemUsage::nodes)
    }

    /// The memory usage, of a buffer's data or of the pointer itself.
    pub fn mem(&self) -> Option<&QPtrMemUsage> {
        match self {
            QPtrUsage::Handles(shapes::Handle::Opaque(_)) => None,
            QPtrUsage::Handles(shapes::Handle::Buffer(usage)) | QPtrUsage::Memory(usage) => {
                Some(usage)
            }
        }
    }
}

impl From<QPtrMemUsage> for QPtrUsage {
    fn from(usage: QPtrMemUsage) -> QPtrUsage {
        QPtrUsage::Memory(usage)
    }
}

/// A step through a usage, in the order in which streams and the notation have it.
pub(crate) enum Step<'a> {
    /// A node; an entry of a map comes with its offset.
    Node { offset: Option<u32>, usage: &'a QPtrMemUsage },
    /// The end of the last map that is still open.
    MapEnd,
}

/// Walks over all nodes with a list of what is open, so that depth costs no stack.
pub(crate) struct Walk<'a> {
    next: Option<(Option<u32>, &'a QPtrMemUsage)>,
    maps: Vec<btree_map::Iter<'a, u32, QPtrMemUsage>>,
}

impl<'a> Walk<'a> {
    pub(crate) fn of(usage: &'a QPtrMemUsage) -> Walk<'a> {
        Walk { next: Some((None, usage)), maps: Vec::new() }
    }
}

impl<'a> Iterator for Walk<'a> {
    type Item = Step<'a>;

    fn next(&mut self) -> Option<Step<'a>> {
        if self.next.is_none() {
            let Some((offset, usage)) = self.maps.last_mut()?.next() else {
                self.maps.pop();
                return Some(Step::MapEnd);
            };
            self.next = Some((Some(*offset), usage));
        }
        let (offset, usage) = self.next.take()?;
        match &usage.kind {
            QPtrMemUsageKind::OffsetBase(entries) => self.maps.push(entries.iter()),
            QPtrMemUsageKind::DynOffsetBase { element, .. } => self.next = Some((None, element)),
            _ => {}
        }
        Some(Step::Node { offset, usage })
    }
}
