//! The published items themselves, sliced out by `build.rs`, and nothing else but ways in.
//!
//! They stand in one module because most of them are private to the published ones.

use super::panics::{Caught, caught};
use super::stand_ins::{AddrSpace, Diag, Either, LayoutCache, SmallVec, Type};
use super::watch::watch;
use std::cmp::Ordering;
use std::collections::BTreeMap;
use std::mem;
use std::num::NonZeroU32;
use std::ops::{Bound, Range};
use std::rc::Rc;

pub mod shapes {
    use super::{AddrSpace, Type};
    use std::num::NonZeroU32;

    include!(concat!(env!("OUT_DIR"), "/shapes.rs"));
}

/// Stands before the assertion of the published text, and hands over to it.
///
/// `merge_mem` and `merge_mem_at` assert the receiver's size once in each call. That makes it the
/// place to count calls and to see the receiver with their text unchanged. The name of the function
/// in which the assertion stands comes with the type of an item defined there.
macro_rules! assert_eq {
    ($max_size:expr, $receiver:ident.max_size) => {{
        fn here() {}
        watch(::std::any::type_name_of_val(&here), &$receiver);
        ::std::assert_eq!($max_size, $receiver.max_size)
    }};
}

include!(concat!(env!("OUT_DIR"), "/mod.rs"));
include!(concat!(env!("OUT_DIR"), "/layout.rs"));
include!(concat!(env!("OUT_DIR"), "/analyze.rs"));

/// The published text, for the lines at which it panics.
pub(super) const ANALYZE: &str = include_str!(concat!(env!("OUT_DIR"), "/analyze.rs"));

/// A merged usage with the conflict, if there is one.
pub(super) type WithConflict<T> = (T, Option<Diag>);

fn parts<T>(result: MergeResult<T>) -> WithConflict<T> {
    (result.merged, result.error.map(|AnalysisError(diag)| diag))
}

pub(super) fn merge(
    layout_cache: &LayoutCache<'_>,
    a: QPtrUsage,
    b: QPtrUsage,
) -> Caught<WithConflict<QPtrUsage>> {
    caught(|| parts(UsageMerger { layout_cache }.merge(a, b)))
}

pub(super) fn merge_mem(
    layout_cache: &LayoutCache<'_>,
    a: QPtrMemUsage,
    b: QPtrMemUsage,
) -> Caught<WithConflict<QPtrMemUsage>> {
    caught(|| parts(UsageMerger { layout_cache }.merge_mem(a, b)))
}

pub(super) fn merge_mem_at(
    layout_cache: &LayoutCache<'_>,
    a: QPtrMemUsage,
    b_offset_in_a: u32,
    b: QPtrMemUsage,
) -> Caught<WithConflict<QPtrMemUsage>> {
    caught(|| parts(UsageMerger { layout_cache }.merge_mem_at(a, b_offset_in_a, b)))
}

/// `merge_mem` with its panics left alone, for timing.
pub(super) fn merge_mem_alone(
    layout_cache: &LayoutCache<'_>,
    a: QPtrMemUsage,
    b: QPtrMemUsage,
) -> WithConflict<QPtrMemUsage> {
    parts(UsageMerger { layout_cache }.merge_mem(a, b))
}

pub(super) fn supports_usage_at_offset(
    layout: &MemTypeLayout,
    offset: u32,
    usage: &QPtrMemUsage,
) -> bool {
    layout.supports_usage_at_offset(offset, usage)
}
