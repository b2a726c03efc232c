//! What the published items lean on and what is not published with them, as small as they allow.

use super::published::{Components, LayoutError, MemTypeLayout, QPtrUsage, TypeLayout, shapes};
use crate::usage::{self, Record, Table};
use std::borrow::Cow;
use std::iter::Take;
use std::marker::PhantomData;
use std::num::NonZeroU32;
use std::ops::Deref;
use std::rc::Rc;
use std::{array, vec};

/// A type is its number in document 01's table.
#[derive(Clone, Copy, Debug, PartialEq, Eq, Hash)]
pub struct Type(pub u32);

/// Always Handles where merging looks at it.
#[derive(Clone, Copy, Debug, PartialEq, Eq, Hash)]
pub enum AddrSpace {
    Handles,
}

/// A conflict's message, as its parts.
#[derive(Clone)]
pub struct Diag {
    pub message: Vec<Part>,
}

/// A part of a message. Usages inside of messages are not carried.
#[derive(Clone, Debug, PartialEq, Eq)]
pub enum Part {
    Text(Cow<'static, str>),
    Usage,
    /// What the table says in place of `layout_of` where the layout failed.
    FailedLayout(Type),
}

impl Diag {
    pub fn bug(message: impl IntoIterator<Item = Part>) -> Diag {
        Diag { message: message.into_iter().collect() }
    }
}

impl From<&'static str> for Part {
    fn from(text: &'static str) -> Part {
        Part::Text(Cow::Borrowed(text))
    }
}

impl From<String> for Part {
    fn from(text: String) -> Part {
        Part::Text(Cow::Owned(text))
    }
}

impl From<QPtrUsage> for Part {
    fn from(_: QPtrUsage) -> Part {
        Part::Usage
    }
}

/// One of two iterators.
pub enum Either<L, R> {
    Left(L),
    Right(R),
}

impl<L: Iterator, R: Iterator<Item = L::Item>> Iterator for Either<L, R> {
    type Item = L::Item;

    fn next(&mut self) -> Option<L::Item> {
        match self {
            Either::Left(left) => left.next(),
            Either::Right(right) => right.next(),
        }
    }
}

/// A vector that is named after an array type. Numbers stand inline up to the array's length, as in the source: merging makes such a
/// vector for each placing in a map. Layouts, which are made once, do not.
pub struct SmallVec<A: Array>(A::Store);

pub trait Array {
    type Item;
    type Store: FromIterator<Self::Item>
        + Deref<Target = [Self::Item]>
        + IntoIterator<Item = Self::Item>;
}

impl<const N: usize> Array for [u32; N] {
    type Item = u32;
    type Store = Numbers<N>;
}

impl<const N: usize> Array for [Rc<MemTypeLayout>; N] {
    type Item = Rc<MemTypeLayout>;
    type Store = Vec<Rc<MemTypeLayout>>;
}

/// Numbers: the first N without an allocation; all of them in a vector if there are more.
pub enum Numbers<const N: usize> {
    Few([u32; N], usize),
    Many(Vec<u32>),
}

impl<const N: usize> FromIterator<u32> for Numbers<N> {
    fn from_iter<I: IntoIterator<Item = u32>>(items: I) -> Self {
        let (mut few, mut count) = ([0; N], 0);
        let mut items = items.into_iter();
        while let Some(item) = items.next() {
            if count == N {
                return Numbers::Many(few.into_iter().chain([item]).chain(items).collect());
            }
            few[count] = item;
            count += 1;
        }
        Numbers::Few(few, count)
    }
}

impl<const N: usize> Deref for Numbers<N> {
    type Target = [u32];

    fn deref(&self) -> &[u32] {
        match self {
            Numbers::Few(few, count) => &few[..*count],
            Numbers::Many(many) => many,
        }
    }
}

impl<const N: usize> IntoIterator for Numbers<N> {
    type Item = u32;
    type IntoIter = Either<Take<array::IntoIter<u32, N>>, vec::IntoIter<u32>>;

    fn into_iter(self) -> Self::IntoIter {
        match self {
            Numbers::Few(few, count) => Either::Left(few.into_iter().take(count)),
            Numbers::Many(many) => Either::Right(many.into_iter()),
        }
    }
}

impl<A: Array> FromIterator<A::Item> for SmallVec<A> {
    fn from_iter<I: IntoIterator<Item = A::Item>>(items: I) -> Self {
        SmallVec(items.into_iter().collect())
    }
}

impl<A: Array> Deref for SmallVec<A> {
    type Target = [A::Item];

    fn deref(&self) -> &[A::Item] {
        &self.0
    }
}

impl<A: Array> IntoIterator for SmallVec<A> {
    type Item = A::Item;
    type IntoIter = <A::Store as IntoIterator>::IntoIter;

    fn into_iter(self) -> Self::IntoIter {
        self.0.into_iter()
    }
}

impl<'a, A: Array> IntoIterator for &'a SmallVec<A> {
    type Item = &'a A::Item;
    type IntoIter = std::slice::Iter<'a, A::Item>;

    fn into_iter(self) -> Self::IntoIter {
        self.0.iter()
    }
}

/// Document 01's table in place of the layouts of SPIR-V types.
pub struct LayoutCache<'a> {
    layouts: Vec<Option<TypeLayout>>,
    lifetime: PhantomData<&'a ()>,
}

impl LayoutCache<'_> {
    /// Builds the layouts of an accepted table.
    pub fn new(table: &Table) -> Self {
        let mut cache = LayoutCache { layouts: Vec::new(), lifetime: PhantomData };
        for (number, record) in (0..).zip(&table.records) {
            let layout = match record {
                Record::Handle => Some(handle(Type(number))),
                Record::Failed => None,
                Record::Concrete(layout) => {
                    Some(TypeLayout::Concrete(Rc::new(cache.mem_type(Type(number), layout))))
                }
            };
            cache.layouts.push(layout);
        }
        cache
    }

    pub fn layout_of(&self, ty: Type) -> Result<TypeLayout, LayoutError> {
        let layout = self.layouts[ty.0 as usize].clone();
        layout.ok_or_else(|| LayoutError(Diag::bug([Part::FailedLayout(ty)])))
    }

    /// The layout of a concrete type.
    ///
    /// # Panics
    /// If the type is not concrete: the table rules and refusal 6 are tested before.
    pub fn concrete(&self, ty: u32) -> &Rc<MemTypeLayout> {
        match &self.layouts[ty as usize] {
            Some(TypeLayout::Concrete(layout)) => layout,
            _ => panic!("type {ty} is not concrete"),
        }
    }

    fn mem_type(&self, original_type: Type, layout: &usage::Layout) -> MemTypeLayout {
        // Alignments are never read.
        let fixed_base = shapes::MemLayout { align: 1, legacy_align: 1, size: layout.size };
        let dyn_unit_stride = NonZeroU32::new(layout.dynamic_stride);
        MemTypeLayout {
            original_type,
            mem_layout: shapes::MaybeDynMemLayout { fixed_base, dyn_unit_stride },
            components: self.components(&layout.components),
        }
    }

    fn components(&self, components: &usage::Components) -> Components {
        match components {
            usage::Components::Scalar => Components::Scalar,
            usage::Components::Elements { stride, ty, length } => Components::Elements {
                stride: NonZeroU32::new(*stride).expect("a stride is not 0"),
                elem: self.concrete(*ty).clone(),
                fixed_len: NonZeroU32::new(*length),
            },
            usage::Components::Fields(fields) => Components::Fields {
                offsets: fields.iter().map(|field| field.offset).collect(),
                layouts: fields.iter().map(|field| self.concrete(field.ty).clone()).collect(),
            },
        }
    }
}

/// A handle or a handle array: one command stands for both, so that both are met here.
fn handle(ty: Type) -> TypeLayout {
    let handle = shapes::Handle::Opaque(ty);
    match ty.0 % 2 {
        0 => TypeLayout::Handle(handle),
        _ => TypeLayout::HandleArray(handle, NonZeroU32::new(ty.0)),
    }
}

#[cfg(test)]
mod tests {
    use super::*;

    #[test]
    fn numbers_are_the_same_inline_and_not() {
        for count in [0, 1, 3, 4, 5, 9] {
            let numbers = || (0..count).collect::<SmallVec<[u32; 4]>>();
            let expected: Vec<u32> = (0..count).collect();
            assert_eq!(*numbers(), *expected);
            assert_eq!(numbers().into_iter().collect::<Vec<u32>>(), expected);
            assert_eq!(matches!(numbers().0, Numbers::Few(..)), count <= 4);
        }
    }
}
