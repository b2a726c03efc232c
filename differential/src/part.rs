//! The part that `receiver` itself hands back, told by where it lies and how long it is.
//!
//! No exported function gives a reference, so the library tells a number. The crate `receiver_part`
//! calls `receiver` and writes its part, a pointer and a length, where its caller says.

use crate::library::Library;
use crate::side::{Answer, Call, CallKind, Choices, Side};
use std::ptr;

/// The library, but of receiver the part.
#[derive(Clone, Copy, Debug, Default)]
pub struct Part;

impl Side for Part {
    fn name(&self) -> String {
        "part".into()
    }

    fn answer(&self, call: &Call) -> Answer {
        let Call { kind, choices, first, second, .. } = call;
        match kind {
            CallKind::Receiver => told(handed(*choices, first, second), first, second),
            _ => Library.answer(call),
        }
    }
}

/// The number of a part that is neither empty nor one of the two streams.
pub const NEITHER: u64 = 3;

/// What a part says of who receives: address and length are compared, never the bytes.
pub fn told(part: *const [u8], first: &[u8], second: &[u8]) -> Answer {
    let number = match part {
        _ if part.is_empty() => 0,
        _ if ptr::eq(part, first) => 1,
        _ if ptr::eq(part, second) => 2,
        _ => NEITHER,
    };
    Answer { number, ..Answer::default() }
}

/// What `receiver` hands back.
///
/// # Panics
/// If nothing was handed over.
pub fn handed(choices: Choices, first: &[u8], second: &[u8]) -> *const [u8] {
    let mut part = Handed { bytes: UNSET.as_ptr(), length: UNSET.len() };
    let (first, first_len) = (first.as_ptr(), first.len());
    let (second, second_len) = (second.as_ptr(), second.len());
    // SAFETY: each pointer comes with the length of its slice, the part's too. The library keeps none.
    unsafe {
        qptr_receiver_part(choices.number(), first, first_len, second, second_len, &mut part);
    }
    assert_ne!(part.bytes, UNSET.as_ptr(), "`receiver_part` writes the part");
    ptr::slice_from_raw_parts(part.bytes, part.length)
}

/// What stands in the place before the part is written to it: no part of any stream.
static UNSET: [u8; 1] = [0];

/// A part as `receiver_part` writes it.
#[repr(C)]
struct Handed {
    bytes: *const u8,
    length: usize,
}

unsafe extern "C" {
    fn qptr_receiver_part(
        choices: u32,
        first: *const u8,
        first_len: usize,
        second: *const u8,
        second_len: usize,
        part: *mut Handed,
    );
}
