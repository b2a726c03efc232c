//! The values of document 01: usages, tops and layout tables. All sides share them.

/// A size in bytes. The order is the one of `merge_mem`: dynamic is largest.
#[derive(Clone, Copy, Debug, PartialEq, Eq, PartialOrd, Ord)]
pub enum Size {
    Fixed(u32),
    Dynamic,
}

/// A memory node.
#[derive(Clone, Debug, PartialEq, Eq)]
pub struct Usage {
    pub size: Size,
    pub kind: Kind,
}

/// What a memory node is, apart from its size. The two typed leaves are one case.
#[derive(Clone, Debug, PartialEq, Eq)]
pub enum Kind {
    Unused,
    Leaf { strict: bool, ty: u32 },
    Map(Vec<Entry>),
    Array { stride: u32, element: Box<Usage> },
}

/// An entry of a map. Entries stand in ascending order of their offsets.
#[derive(Clone, Debug, PartialEq, Eq)]
pub struct Entry {
    pub offset: u32,
    pub node: Usage,
}

/// What `merge` takes.
#[derive(Clone, Debug, PartialEq, Eq)]
pub enum Top {
    Opaque(u32),
    Buffer(Usage),
    Memory(Usage),
}

/// A layout table: its records, numbered from 0.
#[derive(Clone, Debug, Default, PartialEq, Eq)]
pub struct Table {
    pub records: Vec<Record>,
}

#[derive(Clone, Debug, PartialEq, Eq)]
pub enum Record {
    Concrete(Layout),
    Handle,
    Failed,
}

/// A concrete record. A dynamic stride of 0 means that there is none.
#[derive(Clone, Debug, PartialEq, Eq)]
pub struct Layout {
    pub size: u32,
    pub dynamic_stride: u32,
    pub components: Components,
}

/// A length of 0 means that there is none.
#[derive(Clone, Debug, PartialEq, Eq)]
pub enum Components {
    Scalar,
    Elements { stride: u32, ty: u32, length: u32 },
    Fields(Vec<Field>),
}

#[derive(Clone, Copy, Debug, PartialEq, Eq)]
pub struct Field {
    pub offset: u32,
    pub ty: u32,
}

impl Usage {
    /// Unused, fixed 0.
    pub const UNUSED: Usage = Usage { size: Size::Fixed(0), kind: Kind::Unused };

    /// The commands 00 to 04 that the usage's stream has.
    pub fn nodes(&self) -> usize {
        1 + match &self.kind {
            Kind::Unused | Kind::Leaf { .. } => 0,
            Kind::Map(entries) => entries.iter().map(|entry| entry.node.nodes()).sum(),
            Kind::Array { element, .. } => element.nodes(),
        }
    }

    /// The largest type number named, if any is.
    pub fn largest_type(&self) -> Option<u32> {
        match &self.kind {
            Kind::Unused => None,
            Kind::Leaf { ty, .. } => Some(*ty),
            Kind::Map(entries) => entries.iter().filter_map(|e| e.node.largest_type()).max(),
            Kind::Array { element, .. } => element.largest_type(),
        }
    }

    /// The type of a typed leaf.
    pub fn leaf_type(&self) -> Option<u32> {
        match self.kind {
            Kind::Leaf { ty, .. } => Some(ty),
            _ => None,
        }
    }

    pub fn is_strict(&self) -> bool {
        matches!(self.kind, Kind::Leaf { strict: true, .. })
    }
}

impl Top {
    /// The memory node of a Buffer or a Memory.
    pub fn node(&self) -> Option<&Usage> {
        match self {
            Top::Opaque(_) => None,
            Top::Buffer(node) | Top::Memory(node) => Some(node),
        }
    }

    pub fn largest_type(&self) -> Option<u32> {
        match self {
            Top::Opaque(ty) => Some(*ty),
            Top::Buffer(node) | Top::Memory(node) => node.largest_type(),
        }
    }
}

impl Table {
    /// The layout of a concrete type; `None` for a handle, a failed layout or no type at all.
    pub fn concrete(&self, ty: u32) -> Option<&Layout> {
        match self.records.get(usize::try_from(ty).ok()?)? {
            Record::Concrete(layout) => Some(layout),
            Record::Handle | Record::Failed => None,
        }
    }

    /// Whether the table has this type number.
    pub fn has(&self, ty: u32) -> bool {
        usize::try_from(ty).is_ok_and(|ty| ty < self.records.len())
    }
}
