//! What both ways of asking share: a usage's nodes in a row, the tests that need no further question, the components that contain a
//! range, and which questions are asked inside of one.

use crate::usage::{Components, Field, Kind, Layout, Size, Table, Usage};
use std::ops::Range;

/// A node of a usage. What is inside of it stands directly behind it.
#[derive(Clone, Copy, Debug)]
pub struct Node {
    pub size: Size,
    pub kind: NodeKind,
    /// How many nodes it is, with all inside of it.
    pub nodes: usize,
    /// Where it stands in the map around it.
    pub offset: u32,
}

#[derive(Clone, Copy, Debug, PartialEq, Eq)]
pub enum NodeKind {
    Unused,
    Leaf(u32),
    Map,
    Array(u32),
}

impl Node {
    /// Used, and of the fixed size 0.
    pub fn is_empty(&self) -> bool {
        self.kind != NodeKind::Unused && self.size == Size::Fixed(0)
    }
}

/// The nodes of a usage, each before what is inside of it.
pub fn nodes_of(usage: &Usage) -> Vec<Node> {
    let mut nodes = Vec::new();
    put(&mut nodes, usage, 0);
    nodes
}

fn put(nodes: &mut Vec<Node>, usage: &Usage, offset: u32) {
    let kind = match usage.kind {
        Kind::Unused => NodeKind::Unused,
        Kind::Leaf { ty, .. } => NodeKind::Leaf(ty),
        Kind::Map(_) => NodeKind::Map,
        Kind::Array { stride, .. } => NodeKind::Array(stride),
    };
    let place = nodes.len();
    nodes.push(Node { size: usage.size, kind, nodes: 1, offset });
    match &usage.kind {
        Kind::Unused | Kind::Leaf { .. } => {}
        Kind::Map(entries) => {
            entries.iter().for_each(|entry| put(nodes, &entry.node, entry.offset))
        }
        Kind::Array { element, .. } => put(nodes, element, 0),
    }
    nodes[place].nodes = nodes.len() - place;
}

/// What the first tests say: an answer, or that more has to be asked.
pub enum First {
    Yes,
    No,
    Open,
}

/// A component that contains a range, the offset that remains in it, and the index to go on from.
pub struct Containing {
    pub ty: u32,
    pub rest: u32,
    pub next: usize,
}

/// What is asked about: a table and the nodes of a usage.
pub struct Matter<'a> {
    pub table: &'a Table,
    pub nodes: Vec<Node>,
}

impl<'a> Matter<'a> {
    pub fn new(table: &'a Table, usage: &Usage) -> Matter<'a> {
        Matter { table, nodes: nodes_of(usage) }
    }

    pub fn first_tests(&self, ty: u32, at: u32, q: usize) -> First {
        let Some(layout) = self.table.concrete(ty) else { return First::No };
        let node = &self.nodes[q];
        if node.kind == NodeKind::Unused || (at == 0 && node.kind == NodeKind::Leaf(ty)) {
            return First::Yes;
        }
        let fits = node.size != Size::Dynamic && self.end(at, q) <= layout.size;
        if layout.dynamic_stride != 0 || fits { First::Open } else { First::No }
    }

    /// The end of a node that starts here, capped; a dynamic size counts as 0.
    pub fn end(&self, start: u32, q: usize) -> u32 {
        match self.nodes[q].size {
            Size::Fixed(size) => start.saturating_add(size),
            Size::Dynamic => start,
        }
    }

    /// The first component from an index on that contains the node.
    pub fn containing(&self, ty: u32, from: usize, start: u32, q: usize) -> Option<Containing> {
        let end = self.end(start, q);
        match &self.table.concrete(ty)?.components {
            Components::Scalar => None,
            &Components::Elements { stride, ty, length } => {
                let size = self.element_size(ty, start / stride, length)?;
                let reach = (start / stride * stride).checked_add(size)?;
                let inside = from == 0 && end <= reach;
                inside.then_some(Containing { ty, rest: start % stride, next: 1 })
            }
            Components::Fields(fields) => {
                let found = fields.iter().skip(from).position(|f| self.contains(f, start, end))?;
                let (Field { offset, ty }, next) = (fields[from + found], from + found + 1);
                Some(Containing { ty, rest: start - offset, next })
            }
        }
    }

    fn element_size(&self, ty: u32, index: u32, length: u32) -> Option<u32> {
        let size = self.table.concrete(ty)?.size;
        if length == 0 || index < length { Some(size) } else { (index == length).then_some(0) }
    }

    fn contains(&self, field: &Field, start: u32, end: u32) -> bool {
        let Some(Layout { size, dynamic_stride, .. }) = self.table.concrete(field.ty) else {
            return false;
        };
        let field_end = u64::from(field.offset) + u64::from(*size);
        field.offset <= start && (*dynamic_stride != 0 || u64::from(end) <= field_end)
    }

    /// The type that is asked about the element of the array q, if the elements of this one have its stride and its length.
    pub fn element_asked(&self, ty: u32, at: u32, q: usize) -> Option<u32> {
        let NodeKind::Array(wanted) = self.nodes[q].kind else { return None };
        match self.table.concrete(ty)?.components {
            Components::Elements { stride, ty, length } => {
                let alike = stride == wanted && at.is_multiple_of(stride);
                (alike && same_length(stride, length, at, self.nodes[q].size)).then_some(ty)
            }
            Components::Scalar | Components::Fields(_) => None,
        }
    }

    /// The places of all that is inside of a node. The first entry of a map stands first.
    pub fn inside_of(&self, q: usize) -> Range<usize> {
        q + 1..q + self.nodes[q].nodes
    }
}

/// A way of asking. It says how one question is asked; which ones are asked inside of it, and in which order, is the same for all.
/// `None` ends the asking.
pub trait Asking<'a> {
    fn matter(&self) -> &Matter<'a>;

    /// Asks one question inside of another.
    fn asked(&mut self, ty: u32, at: u32, q: usize) -> Option<bool>;

    /// What is asked where the first tests leave a question open.
    fn past_tests(&mut self, ty: u32, at: u32, q: usize) -> Option<bool> {
        Some(self.any_component(ty, at, q)? || self.itself(ty, at, q)?)
    }

    fn any_component(&mut self, ty: u32, at: u32, q: usize) -> Option<bool> {
        let mut from = 0;
        while let Some(found) = self.matter().containing(ty, from, at, q) {
            if self.asked(found.ty, found.rest, q)? {
                return Some(true);
            }
            from = found.next;
        }
        Some(false)
    }

    fn itself(&mut self, ty: u32, at: u32, q: usize) -> Option<bool> {
        match self.matter().nodes[q].kind {
            NodeKind::Unused | NodeKind::Leaf(_) => Some(false),
            NodeKind::Map => self.entries(ty, at, q),
            NodeKind::Array(_) => match self.matter().element_asked(ty, at, q) {
                Some(element) => self.asked(element, 0, q + 1),
                None => Some(false),
            },
        }
    }

    fn entries(&mut self, ty: u32, at: u32, q: usize) -> Option<bool> {
        let Range { start: mut e, end } = self.matter().inside_of(q);
        while e < end {
            if !self.entry(ty, at, e)? {
                return Some(false);
            }
            e += self.matter().nodes[e].nodes;
        }
        Some(true)
    }

    fn entry(&mut self, ty: u32, at: u32, e: usize) -> Option<bool> {
        match at.checked_add(self.matter().nodes[e].offset) {
            None => Some(false),
            Some(0) => self.asked(ty, 0, e),
            Some(sum) => self.any_component(ty, sum, e),
        }
    }
}

fn same_length(stride: u32, length: u32, at: u32, size: Size) -> bool {
    match size {
        Size::Dynamic => length == 0,
        Size::Fixed(size) => {
            let whole = size.is_multiple_of(stride) && size != 0;
            let end = u64::from(at / stride) + u64::from(size / stride);
            whole && end == u64::from(length)
        }
    }
}
