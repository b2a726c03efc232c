//! Document 01's bench pairs, as values; with ties to the first, too, and with the strict lookup.

use usage_merger::{
    Choices, Conflict, ConflictKind, Error, Lookup, MergeResult, QPtrMemUsage, Refusal, Table,
    Ties, UsageMerger,
};

/// First, second, the merged usage, the pairings.
const ANSWERED: [(&str, &str, &str, u64); 12] = [
    ("U0", "U0", "U0", 1),
    ("D4,0", "D4,1", "D4,1", 1),
    ("O8[4:D4,1]", "D8,2", "D8,2", 2),
    ("O8[0:D4,0]", "O8[4:D4,1]", "O8[0:D4,0 4:D4,1]", 2),
    ("O12[0:D4,0 4:D4,0]", "O12[2:D4,0]", "O12[4:D4,0]", 3),
    ("A16,4,D4,0", "D16,3", "D16,3", 1),
    ("A12,4,D4,0", "D16,3", "D16,3", 1),
    ("A32,16,O16[0:D4,0]", "O32[8:D4,0]", "A32,16,O16[0:D4,0 8:D4,0]", 3),
    ("O16[4:D4,0]", "O16[0:U16]", "O16[0:D16,0]", 3),
    ("O8[4:D0,0]", "O8[4:D4,0]", "O8[4:D0,0]", 2),
    ("O16[16:D0,0]", "D16,3", "D16,3", 2),
    ("D4,4", "D4,0", "D4,4", 1),
];

/// Those of them that are answered otherwise with ties to the first, worked out from document 01 with
/// this rule alone changed; and pairs that tie in an array's element and at a map's offset.
const TO_FIRST: [(&str, &str, &str, u64); 6] = [
    ("D4,0", "D4,1", "D4,0", 1),
    ("O12[0:D4,0 4:D4,0]", "O12[2:D4,0]", "O12[0:D4,0]", 2),
    ("O16[4:D4,0]", "O16[0:U16]", "O16[4:D4,0]", 2),
    ("O8[4:D0,0]", "O8[4:D4,0]", "O8[4:D4,0]", 2),
    ("A16,4,D4,0", "D4,1", "A16,4,D4,0", 2),
    ("O8[0:D4,0]", "D4,1", "O8[0:D4,1]", 2),
];

fn usage(text: &str) -> QPtrMemUsage {
    text.parse().unwrap()
}

fn over(table: &Table, choices: Choices, first: &str, second: &str) -> MergeResult<String> {
    let mut merger = UsageMerger::new(table).unwrap().with_choices(choices);
    let answer = merger.merge_mem(&usage(first), &usage(second)).unwrap();
    answer.map(|usage| usage.to_string())
}

fn answer(choices: Choices, first: &str, second: &str) -> MergeResult<String> {
    over(&Table::bench(), choices, first, second)
}

fn merged(first: &str, second: &str) -> (String, Vec<Conflict>, u64) {
    let answer = answer(Choices::default(), first, second);
    (answer.merged, answer.conflicts, answer.pairings)
}

/// A conflict at these offsets, alone.
fn conflict(offsets: &[u32], kind: ConflictKind) -> Vec<Conflict> {
    let offsets = offsets.to_vec();
    vec![Conflict { node: None, perhaps_within: Vec::new(), offsets, kind }]
}

#[test]
fn the_answers_are_as_written() {
    for (first, second, expected, expected_pairings) in ANSWERED {
        let (usage, _, pairings) = merged(first, second);
        assert_eq!((&usage[..], pairings), (expected, expected_pairings), "{first} and {second}");
    }
}

#[test]
fn ties_to_the_first_are_as_worked_out() {
    let to_first = Choices::default().with_ties(Ties::First);
    let worked = |first, second| TO_FIRST.iter().find(|row| (row.0, row.1) == (first, second));
    let same = ANSWERED.iter().filter(|row| worked(row.0, row.1).is_none());
    assert_eq!(same.clone().count(), 8);
    for (first, second, expected, pairings) in TO_FIRST.iter().chain(same) {
        let answer = answer(to_first, first, second);
        assert_eq!(
            (&answer.merged[..], answer.pairings),
            (*expected, *pairings),
            "{first} {second}"
        );
    }
    assert_eq!(answer(to_first, "D4,0", "D4,1").conflicts, conflict(&[], ConflictKind::Type));
    let straddle = ConflictKind::Straddle { entry: 4, usage: 2 };
    let straddled = answer(to_first, "O12[0:D4,0 4:D4,0]", "O12[2:D4,0]");
    assert_eq!(straddled.conflicts, conflict(&[2], straddle));
}

/// The strict lookup decides one row, whoever receives on ties.
#[test]
fn the_strict_lookup_is_as_written() {
    let past = ("O16[16:D0,0]", "D16,3");
    let to_first = ANSWERED.iter().chain(&TO_FIRST).map(|row| (row.0, row.1, Ties::First));
    let rows = ANSWERED.iter().map(|row| (row.0, row.1, Ties::Second)).chain(to_first);
    for (first, second, ties) in rows {
        let lenient = Choices::default().with_ties(ties);
        let strict = answer(lenient.with_lookup(Lookup::Strict), first, second);
        let mut expected = answer(lenient, first, second);
        if (first, second) == past {
            expected.conflicts = conflict(&[16], ConflictKind::Type);
        }
        assert_eq!(strict, expected, "{first} and {second}");
    }
}

/// A dynamic size counts as 0 in the lookup, so sound usages are touched, too.
#[test]
fn the_strict_lookup_decides_about_sound_usages() {
    let table = "scalar 1+1; elements 1+1 (1, 0, 1)".parse().unwrap();
    let strict = Choices::default().with_lookup(Lookup::Strict);
    for (choices, expected) in
        [(Choices::default(), Vec::new()), (strict, conflict(&[1], ConflictKind::Type))]
    {
        let MergeResult { merged, conflicts, pairings } =
            over(&table, choices, "O*[1:D*,0]", "D*,1");
        assert_eq!((&merged[..], conflicts, pairings), ("D*,1", expected, 2));
    }
}

#[test]
fn the_conflicts_are_as_written() {
    assert_eq!(merged("D4,0", "D4,1").1, conflict(&[], ConflictKind::Type));
    let straddle = ConflictKind::Straddle { entry: 2, usage: 0 };
    assert_eq!(merged("O12[0:D4,0 4:D4,0]", "O12[2:D4,0]").1, conflict(&[0], straddle));
    assert_eq!(merged("A12,4,D4,0", "D16,3").1, conflict(&[], ConflictKind::Type));
    assert_eq!(merged("D4,4", "D4,0").1, conflict(&[], ConflictKind::Handle));
    assert_eq!(merged("O8[0:D4,1]", "D8,2").1, conflict(&[0], ConflictKind::Type));
    let without = ANSWERED.iter().filter(|(first, second, ..)| merged(first, second).1.is_empty());
    assert_eq!(without.count(), 8);
}

#[test]
fn the_refusals_are_as_written() {
    let mut merger = UsageMerger::new(&Table::bench()).unwrap();
    let mut refused = |first, second| merger.merge_mem(&usage(first), &usage(second)).unwrap_err();
    assert_eq!(refused("A32,16,D4,0", "O32[8:D4,0]"), Error::Refused(Refusal::Outgrown));
    assert_eq!(refused("O*[4294967294:D4,0]", "O*[0:D*,0]"), Error::Refused(Refusal::PastBits));
}
