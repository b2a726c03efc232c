//! The six calls on bytes, as the static library has them, with slices in place of pointers.
//!
//! For those who keep tables and streams as bytes. [`UsageMerger`](crate::UsageMerger) does the
//! same with values, and manages the buffers.
//!
//! The library takes all [`Choices`] as one number, which is 0 for what the source does:
//!
//! ```
//! use usage_merger::{Choices, Lookup, Ties};
//! assert_eq!(Choices::default().number(), 0);
//! assert_eq!(Choices::of(1), Choices::default().with_ties(Ties::First));
//! assert_eq!(Choices::of(2), Choices::default().with_lookup(Lookup::Strict));
//! assert_eq!(Choices::of(3), Choices::of(1).with_lookup(Lookup::Strict));
//! // A bit that no choice has.
//! assert_eq!(Choices::of(1 << 31), Choices::default());
//! ```
//!
//! Every input is answered: what breaks the format is refused by a number. All unsafe code of the
//! crate is in this file.

use crate::choices::Choices;

/// The bytes of work area that every call but [`receiver`] asks for. What they hold before and
/// afterwards is of no matter.
pub const WORK_AREA: usize = 49_152;

/// The most nodes that the streams of one call have together.
pub const MOST_NODES: usize = 512;

/// What a call gives back, apart from its buffers.
#[derive(Clone, Copy, Debug, PartialEq, Eq)]
pub struct Answer {
    /// 0 if answered, else the [`Refusal`](crate::Refusal)'s number.
    pub number: u64,
    /// The yes or no of [`supports`] and [`sound`], as 1 or 0.
    pub yes: u64,
    /// How many bytes of the output are the usage.
    pub usage_length: u64,
    /// How many bytes of the report buffer are the report.
    pub report_length: u64,
    /// How many placings were made.
    pub pairings: u64,
}

/// The C declarations: a slice is a pointer and a length, and choices come first. What the library
/// has for those who choose nothing, under the names without `_with`, is not needed here.
#[rustfmt::skip]
mod linked {
    /// A slice that is read.
    type Bytes = *const u8;
    /// A slice that is written.
    type BytesMut = *mut u8;
    /// Number, yes or no, usage length, report length, pairings.
    type Words = *mut [u64; 5];

    unsafe extern "C" {
        pub fn qptr_receiver_with(
            choices: u32, first: Bytes, first_len: usize, second: Bytes, second_len: usize,
        ) -> u32;

        pub fn qptr_supports_with(
            choices: u32, table: Bytes, table_len: usize, work: BytesMut, work_len: usize,
            ty: u32, offset: u32, stream: Bytes, stream_len: usize, answer: Words,
        );

        pub fn qptr_place_with(
            choices: u32, table: Bytes, table_len: usize, work: BytesMut, work_len: usize,
            first: Bytes, first_len: usize, offset: u32, second: Bytes, second_len: usize,
            output: BytesMut, output_len: usize, report: BytesMut, report_len: usize, answer: Words,
        );

        pub fn qptr_merge_with(
            choices: u32, table: Bytes, table_len: usize, work: BytesMut, work_len: usize,
            first: Bytes, first_len: usize, second: Bytes, second_len: usize,
            output: BytesMut, output_len: usize, report: BytesMut, report_len: usize, answer: Words,
        );

        pub fn qptr_fold_with(
            choices: u32, table: Bytes, table_len: usize, work: BytesMut, work_len: usize,
            list: Bytes, list_len: usize,
            output: BytesMut, output_len: usize, report: BytesMut, report_len: usize, answer: Words,
        );

        pub fn qptr_sound(
            table: Bytes, table_len: usize, work: BytesMut, work_len: usize,
            stream: Bytes, stream_len: usize, answer: Words,
        );
    }
}

/// What every call but [`receiver`] is made with.
#[derive(Debug)]
pub struct Setting<'a> {
    /// The bytes of a layout table.
    pub table: &'a [u8],
    /// The work area.
    pub work: &'a mut [u8],
    /// The choices. None of them matters to [`sound`].
    pub choices: Choices,
}

/// Where [`place`], [`merge`] and [`fold`] write.
#[derive(Debug)]
pub struct Buffers<'a> {
    /// The usage goes to the start of it; the rest of it is kept.
    pub output: &'a mut [u8],
    /// The report goes to the start of it, followed by zeros.
    pub report: &'a mut [u8],
}

// SAFETY, for all six: every pointer comes with the length of the slice that it points to; slices
// that are written are lent by `&mut`, so they overlap nothing; `words` has the five numbers that
// are filled in. The library keeps no pointer and has no state of its own.

/// Which of two Memory streams receives the other: 1 the first, 2 the second, 0 where one of them
/// is bad or both have too many nodes. The lookup does not matter to it.
///
/// ```
/// use usage_merger::{Choices, Ties, calls::receiver};
/// let (small, large) = ([0x0a, 0, 1, 4, 0, 0, 0], [0x0a, 0, 1, 8, 0, 0, 0]);
/// let (to_second, to_first) = (Choices::default(), Choices::default().with_ties(Ties::First));
/// assert_eq!((receiver(to_second, &small, &large), receiver(to_first, &small, &large)), (2, 2));
/// assert_eq!((receiver(to_second, &small, &small), receiver(to_first, &small, &small)), (2, 1));
/// assert_eq!(receiver(to_first, &small, b"no stream"), 0);
/// ```
#[rustfmt::skip]
pub fn receiver(choices: Choices, first: &[u8], second: &[u8]) -> u32 {
    // SAFETY: as said above.
    unsafe {
        linked::qptr_receiver_with(
            choices.number(), first.as_ptr(), first.len(), second.as_ptr(), second.len(),
        )
    }
}

/// Whether a type supports the usage of a Memory stream at an offset. The tie rule does not matter
/// to it, but the lookup does.
#[rustfmt::skip]
pub fn supports(setting: Setting<'_>, ty: u32, offset: u32, stream: &[u8]) -> Answer {
    let Setting { table, work, choices } = setting;
    let mut words = [0; 5];
    // SAFETY: as said above.
    unsafe {
        linked::qptr_supports_with(
            choices.number(), table.as_ptr(), table.len(), work.as_mut_ptr(), work.len(),
            ty, offset, stream.as_ptr(), stream.len(), &raw mut words,
        );
    }
    Answer::of(words)
}

/// Places the usage of the second Memory stream into the first's, at an offset. The tie rule is
/// asked where that leads to merging, and the lookup where a typed leaf receives.
#[rustfmt::skip]
pub fn place(
    setting: Setting<'_>, first: &[u8], offset: u32, second: &[u8], buffers: Buffers<'_>,
) -> Answer {
    let Setting { table, work, choices } = setting;
    let Buffers { output, report } = buffers;
    let mut words = [0; 5];
    // SAFETY: as said above.
    unsafe {
        linked::qptr_place_with(
            choices.number(), table.as_ptr(), table.len(), work.as_mut_ptr(), work.len(),
            first.as_ptr(), first.len(), offset, second.as_ptr(), second.len(),
            output.as_mut_ptr(), output.len(), report.as_mut_ptr(), report.len(), &raw mut words,
        );
    }
    Answer::of(words)
}

/// Merges two tops.
///
/// ```
/// use usage_merger::{Choices, calls::{Buffers, Setting, WORK_AREA, merge}};
/// let mut work = vec![0; WORK_AREA];
/// let setting = Setting { table: &[0, 0], work: &mut work, choices: Choices::default() };
/// let unused = [0x0a, 0, 1, 0, 0, 0, 0];
/// let (mut output, mut report) = ([0xee; 8], [0xee; 2]);
/// let buffers = Buffers { output: &mut output, report: &mut report };
/// let answer = merge(setting, &unused, &unused, buffers);
/// assert_eq!((answer.number, answer.usage_length, answer.pairings), (0, 7, 1));
/// assert_eq!((output, report), ([0x0a, 0, 1, 0, 0, 0, 0, 0xee], [0, 0]));
/// ```
#[rustfmt::skip]
pub fn merge(setting: Setting<'_>, first: &[u8], second: &[u8], buffers: Buffers<'_>) -> Answer {
    let Setting { table, work, choices } = setting;
    let Buffers { output, report } = buffers;
    let mut words = [0; 5];
    // SAFETY: as said above.
    unsafe {
        linked::qptr_merge_with(
            choices.number(), table.as_ptr(), table.len(), work.as_mut_ptr(), work.len(),
            first.as_ptr(), first.len(), second.as_ptr(), second.len(),
            output.as_mut_ptr(), output.len(), report.as_mut_ptr(), report.len(), &raw mut words,
        );
    }
    Answer::of(words)
}

/// Folds the nodes of a list. The usage so far is the first of each merge.
#[rustfmt::skip]
pub fn fold(setting: Setting<'_>, list: &[u8], buffers: Buffers<'_>) -> Answer {
    let Setting { table, work, choices } = setting;
    let Buffers { output, report } = buffers;
    let mut words = [0; 5];
    // SAFETY: as said above.
    unsafe {
        linked::qptr_fold_with(
            choices.number(), table.as_ptr(), table.len(), work.as_mut_ptr(), work.len(),
            list.as_ptr(), list.len(),
            output.as_mut_ptr(), output.len(), report.as_mut_ptr(), report.len(), &raw mut words,
        );
    }
    Answer::of(words)
}

/// Whether the usage of a Memory stream is sound.
#[rustfmt::skip]
pub fn sound(setting: Setting<'_>, stream: &[u8]) -> Answer {
    let Setting { table, work, choices: _ } = setting;
    let mut words = [0; 5];
    // SAFETY: as said above.
    unsafe {
        linked::qptr_sound(
            table.as_ptr(), table.len(), work.as_mut_ptr(), work.len(),
            stream.as_ptr(), stream.len(), &raw mut words,
        );
    }
    Answer::of(words)
}

impl Answer {
    fn of([number, yes, usage_length, report_length, pairings]: [u64; 5]) -> Answer {
        Answer { number, yes, usage_length, report_length, pairings }
    }
}
