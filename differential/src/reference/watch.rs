//! What is seen of the reference from the place where it asserts the receiver's size.

use super::published::QPtrMemUsage;
use std::cell::{Cell, RefCell};

thread_local! {
    /// Nobody looks while the reference is timed.
    static WATCHED: Cell<bool> = const { Cell::new(false) };
    static PAIRINGS: Cell<u32> = const { Cell::new(0) };
    static RECEIVER: RefCell<Seen> = const { RefCell::new(Seen::Unwanted) };
}

/// The receiver that `merge_mem` chose, if somebody wants to know.
enum Seen {
    Unwanted,
    Awaited,
    Receiver(QPtrMemUsage),
}

/// Called at each size assertion, with the name of an item inside of the function that makes it.
#[inline]
pub fn watch(item: &str, receiver: &QPtrMemUsage) {
    if WATCHED.get() {
        see(item, receiver);
    }
}

fn see(item: &str, receiver: &QPtrMemUsage) {
    if item.ends_with("::merge_mem_at::here") {
        PAIRINGS.set(PAIRINGS.get() + 1);
    } else if item.ends_with("::merge_mem::here") {
        RECEIVER.with_borrow_mut(|seen| {
            if let Seen::Awaited = seen {
                *seen = Seen::Receiver(receiver.clone());
            }
        });
    } else {
        panic!("a size assertion stands in an unknown place: {item}");
    }
}

/// Runs something, and tells how often `merge_mem_at` was called meanwhile.
pub fn pairings_of<T>(run: impl FnOnce() -> T) -> (T, u32) {
    PAIRINGS.set(0);
    let result = watched(run);
    (result, PAIRINGS.get())
}

/// Runs something, and tells the receiver that the first call of `merge_mem` in it chose.
pub fn receiver_of(run: impl FnOnce()) -> Option<QPtrMemUsage> {
    RECEIVER.set(Seen::Awaited);
    watched(run);
    match RECEIVER.replace(Seen::Unwanted) {
        Seen::Receiver(receiver) => Some(receiver),
        Seen::Unwanted | Seen::Awaited => None,
    }
}

fn watched<T>(run: impl FnOnce() -> T) -> T {
    WATCHED.set(true);
    let result = run();
    WATCHED.set(false);
    result
}
