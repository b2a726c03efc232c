//! The part that `receiver` hands back is told by its address and its length, so a wrong one is noticed.
#![cfg(feature = "library")]

use differential::compare::{Category, compare, compare_one, judge};
use differential::generate::{Calls, Source};
use differential::part::{NEITHER, Part, handed, told};
use differential::reference::Reference;
use differential::rows::{directed, limits, with_choices};
use differential::side::{Answer, Call, CallKind, Choices, Side, Ties, all_choices};

/// Generated calls with two equal streams.
fn alike(choices: Choices) -> Vec<Call> {
    let calls = Calls::new(CallKind::Receiver, Source::Sound, 1).with(choices).take(20_000);
    calls.filter(|call| call.first == call.second).collect()
}

/// The part, with the streams exchanged.
struct Exchanged;

impl Side for Exchanged {
    fn name(&self) -> String {
        "exchanged".into()
    }

    fn answer(&self, Call { choices, first, second, .. }: &Call) -> Answer {
        told(handed(*choices, first, second), second, first)
    }
}

#[test]
fn worked_rows_hold_for_the_part() {
    let rows = [directed(), limits(), with_choices()].concat();
    let rows = rows.iter().filter(|row| row.call.kind == CallKind::Receiver);
    for row in rows {
        assert_eq!(row.broken_by(&Part), None);
        if let Err(difference) = compare_one([judge(row.call.choices), &Part], &row.call) {
            panic!("{difference}");
        }
    }
}

#[test]
fn equal_streams_are_told_apart() {
    for choices in all_choices() {
        let said = if choices.ties == Ties::First { (1, 2) } else { (2, 1) };
        let calls = alike(choices);
        assert!(calls.len() > 1_000, "{} pairs", calls.len());
        for call in calls {
            assert_eq!((Part.answer(&call).number, Exchanged.answer(&call).number), said, "{call}");
        }
    }
}

#[test]
fn exchanged_parts_are_noticed() {
    let choices = Choices::default();
    let category = Category { kind: CallKind::Receiver, source: Source::Sound, choices };
    let difference = compare([&Reference, &Exchanged], category, 1_000, 1).expect_err("a swap");
    let said = |number| format!("says\n    number {number}, yes 0, pairings 0");
    let (one, other) = (said(2), said(1));
    assert_eq!(
        difference.to_string(),
        format!("receiver\n  first   U0\n  second  U0\n  reference {one}\n  exchanged {other}")
    );
}

/// A shorter part and a copy are neither stream.
#[test]
fn other_parts_are_neither() {
    let Call { first, second, .. } = &alike(Choices::default())[0];
    let copy = second.clone();
    for part in [&first[..first.len() - 1], &second[1..], &copy] {
        assert_eq!(told(part, first, second).number, NEITHER);
    }
}
