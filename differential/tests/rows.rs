//! Document 01, the reference and the reading agree on all worked rows.

use differential::compare::compare_one;
use differential::notation::hex;
use differential::reading::Reading;
use differential::reference::Reference;
use differential::rows::{
    Row, bench, decided_by_lookup, decided_by_ties, directed, limits, printed_example, ties,
    whatever_lookup, whatever_ties,
};
use differential::side::{Call, Choices, Lookup, Side, Ties};

const SIDES: [&dyn Side; 2] = [&Reference, &Reading::FAULTLESS];

fn hold(rows: &[Row]) {
    for row in rows {
        for side in SIDES {
            assert_eq!(row.broken_by(side), None);
        }
        if let Err(difference) = compare_one(SIDES, &row.call) {
            panic!("{difference}");
        }
    }
}

#[test]
fn bench_rows_hold() {
    assert_eq!(bench().len(), 14);
    hold(&bench());
}

/// The line that document 01's program prints: number, pairings, output and report in hex.
#[test]
fn printed_example_is_printed() {
    for side in SIDES {
        let answer = side.answer(&printed_example().call);
        let (usage, report) = (hex(answer.usage()), hex(answer.conflicts()));
        let line = format!("{} {} {usage} {report}", answer.number, answer.pairings);
        assert_eq!(line, "0 2 0a02010800000002000000 30310000000032", "{}", side.name());
    }
}

/// The reading alone has rows with choices. Whether another answer would be given if one of these
/// were taken back is as it is said of them.
fn hold_with_choices(rows: &[Row], back: fn(Choices) -> Choices, decided: bool) {
    for row in rows {
        assert_eq!(row.broken_by(&Reading::FAULTLESS), None);
        assert_eq!(is_decided(&row.call, back), decided, "{}", row.call);
    }
}

fn is_decided(call: &Call, back: fn(Choices) -> Choices) -> bool {
    let without = call.clone().with(back(call.choices));
    assert_ne!(without.choices, call.choices);
    Reading::FAULTLESS.answer(&without) != Reading::FAULTLESS.answer(call)
}

fn to_second(choices: Choices) -> Choices {
    choices.with_ties(Ties::Second)
}

fn lenient(choices: Choices) -> Choices {
    choices.with_lookup(Lookup::Lenient)
}

#[test]
fn rows_about_ties_hold() {
    hold_with_choices(&decided_by_ties(), to_second, true);
    hold_with_choices(&whatever_ties(), to_second, false);
}

#[test]
fn rows_about_the_lookup_hold() {
    hold_with_choices(&decided_by_lookup(), lenient, true);
    hold_with_choices(&whatever_lookup(), lenient, false);
}

/// Some rows have both choices, and some of them are decided by both.
#[test]
fn rows_about_both_choices_hold() {
    let of_both = |row: &Row| row.call.choices.ties == Ties::First;
    let by_ties = |row: &&Row| is_decided(&row.call, to_second);
    for (mut rows, decided) in [(decided_by_lookup(), 3), (whatever_lookup(), 5)] {
        rows.retain(of_both);
        assert_eq!((rows.len(), rows.iter().filter(by_ties).count()), (8, decided));
    }
}

/// All rows about ties but one bench pair are the same with the strict lookup besides.
#[test]
fn ties_and_the_lookup_are_two_choices() {
    let mut rows = ties();
    for row in &mut rows {
        row.call.choices.lookup = Lookup::Strict;
    }
    let broken = rows.iter().filter(|row| row.broken_by(&Reading::FAULTLESS).is_some());
    let shown: Vec<String> = broken.map(|row| row.call.to_string()).collect();
    assert_eq!(shown.len(), 1, "{}", shown.join("\n"));
    assert!(shown[0].contains("  first   Memory O16[16:D0,0]\n  second  Memory D16,3\n"));
}

#[test]
fn directed_rows_hold() {
    hold(&directed());
}

#[test]
fn rows_about_limits_hold() {
    hold(&limits());
}
