//! The library's functions as C calls them. Those without choices answer as those with choices 0,
//! and bits that no choice has are not looked at.

#[allow(dead_code)]
mod records;

use records::{Record, records};
use usage_merger::{Choices, Lookup, Ties};

/// A slice that is read, and one that is written.
type Bytes = *const u8;
type BytesMut = *mut u8;
type Words = *mut [u64; 5];

#[rustfmt::skip]
unsafe extern "C" {
    fn qptr_receiver(first: Bytes, first_len: usize, second: Bytes, second_len: usize) -> u32;

    fn qptr_receiver_with(
        choices: u32, first: Bytes, first_len: usize, second: Bytes, second_len: usize,
    ) -> u32;

    fn qptr_supports(
        table: Bytes, table_len: usize, work: BytesMut, work_len: usize,
        ty: u32, offset: u32, stream: Bytes, stream_len: usize, answer: Words,
    );

    fn qptr_supports_with(
        choices: u32, table: Bytes, table_len: usize, work: BytesMut, work_len: usize,
        ty: u32, offset: u32, stream: Bytes, stream_len: usize, answer: Words,
    );

    fn qptr_place(
        table: Bytes, table_len: usize, work: BytesMut, work_len: usize,
        first: Bytes, first_len: usize, offset: u32, second: Bytes, second_len: usize,
        output: BytesMut, output_len: usize, report: BytesMut, report_len: usize, answer: Words,
    );

    fn qptr_place_with(
        choices: u32, table: Bytes, table_len: usize, work: BytesMut, work_len: usize,
        first: Bytes, first_len: usize, offset: u32, second: Bytes, second_len: usize,
        output: BytesMut, output_len: usize, report: BytesMut, report_len: usize, answer: Words,
    );

    fn qptr_merge(
        table: Bytes, table_len: usize, work: BytesMut, work_len: usize,
        first: Bytes, first_len: usize, second: Bytes, second_len: usize,
        output: BytesMut, output_len: usize, report: BytesMut, report_len: usize, answer: Words,
    );

    fn qptr_merge_with(
        choices: u32, table: Bytes, table_len: usize, work: BytesMut, work_len: usize,
        first: Bytes, first_len: usize, second: Bytes, second_len: usize,
        output: BytesMut, output_len: usize, report: BytesMut, report_len: usize, answer: Words,
    );

    fn qptr_fold(
        table: Bytes, table_len: usize, work: BytesMut, work_len: usize,
        list: Bytes, list_len: usize,
        output: BytesMut, output_len: usize, report: BytesMut, report_len: usize, answer: Words,
    );

    fn qptr_fold_with(
        choices: u32, table: Bytes, table_len: usize, work: BytesMut, work_len: usize,
        list: Bytes, list_len: usize,
        output: BytesMut, output_len: usize, report: BytesMut, report_len: usize, answer: Words,
    );
}

/// The recorded calls that have a function with choices and one without: all but those of sound.
fn twins() -> Vec<Record> {
    let mut records = records();
    records.retain(|record| record.call < 5);
    records
}

/// Calls the function with choices, or the one that takes none.
macro_rules! ask {
    ($choices:ident, $plain:ident, $with:ident, $($part:expr),*) => {
        match $choices {
            None => $plain($($part),*),
            Some(choices) => $with(choices, $($part),*),
        }
    };
}

/// The five numbers and both buffers after a recorded call, made with these choices or with none.
#[rustfmt::skip]
fn left(record: &Record, ch: Option<u32>) -> ([u64; 5], Vec<u8>, Vec<u8>) {
    let Record { ty, offset, .. } = *record;
    let mut work = vec![0xee; record.work];
    let (mut output, mut report) = (record.output.clone(), record.report.clone());
    let mut numbers = [0; 5];
    let read = |bytes: &[u8]| (bytes.as_ptr(), bytes.len());
    let write = |bytes: &mut [u8]| (bytes.as_mut_ptr(), bytes.len());
    let ((t, t_len), (w, w_len)) = (read(&record.table), write(&mut work));
    let ((a, a_len), (b, b_len)) = (read(&record.first), read(&record.second));
    let ((o, o_len), (r, r_len)) = (write(&mut output), write(&mut report));
    let n = &raw mut numbers;
    // SAFETY: each pointer comes with the length of the slice that it points to; those that are
    // written point to vectors of their own, and `n` to five numbers.
    unsafe {
        match record.call {
            0 => numbers[0] = ask!(ch, qptr_receiver, qptr_receiver_with, a, a_len, b, b_len).into(),
            1 => ask!(
                ch, qptr_supports, qptr_supports_with,
                t, t_len, w, w_len, ty, offset, a, a_len, n
            ),
            2 => ask!(
                ch, qptr_place, qptr_place_with,
                t, t_len, w, w_len, a, a_len, offset, b, b_len, o, o_len, r, r_len, n
            ),
            3 => ask!(
                ch, qptr_merge, qptr_merge_with,
                t, t_len, w, w_len, a, a_len, b, b_len, o, o_len, r, r_len, n
            ),
            _ => ask!(
                ch, qptr_fold, qptr_fold_with,
                t, t_len, w, w_len, a, a_len, o, o_len, r, r_len, n
            ),
        }
    }
    (numbers, output, report)
}

#[test]
fn without_choices_is_with_choices_0() {
    for (index, record) in twins().iter().enumerate() {
        assert_eq!(left(record, None), left(record, Some(0)), "record {index}");
    }
}

/// Which calls these two numbers of choices answer differently.
fn touched(twins: &[Record], one: u32, other: u32) -> Vec<u8> {
    let differs = |record: &Record| left(record, Some(one)) != left(record, Some(other));
    let touches = |call: &u8| twins.iter().any(|it| it.call == *call && differs(it));
    (0..5).filter(touches).collect()
}

#[test]
fn each_choice_touches_its_calls_with_the_other_or_without() {
    let twins = twins();
    for (without, with) in [(0, 1), (2, 3)] {
        assert_eq!(touched(&twins, without, with), [0, 2, 3, 4], "the tie rule, all but supports");
    }
    for (without, with) in [(0, 2), (1, 3)] {
        assert_eq!(touched(&twins, without, with), [1, 2, 3, 4], "the lookup, all but receiver");
    }
}

#[test]
fn numbers_are_sums_of_choices() {
    let none = Choices::default();
    let (to_first, strict) = (none.with_ties(Ties::First), none.with_lookup(Lookup::Strict));
    let all = [none, to_first, strict, strict.with_ties(Ties::First)];
    for (number, choices) in (0..).zip(all) {
        assert_eq!((choices.number(), Choices::of(number)), (number, choices));
        for bit in 2..32 {
            assert_eq!(Choices::of(number | 1 << bit), choices, "bit {bit}");
        }
        assert_eq!(Choices::of(number | !3), choices);
    }
}

#[test]
fn bits_that_no_choice_has_are_not_looked_at() {
    let unknown = !Choices::of(u32::MAX).number();
    for (index, record) in twins().iter().enumerate() {
        let number = record.choices.number();
        let expected = left(record, Some(number));
        for bits in [unknown, unknown & (1 << (index % 32))] {
            assert_eq!(left(record, Some(number | bits)), expected, "record {index}, {bits:#x}");
        }
    }
}
