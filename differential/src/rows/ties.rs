//! Rows with ties to the first: document 01's sentences with the tie rule alone changed. First is who
//! is passed first: in rule 6 b, in rule 5 the element, in a fold the usage so far.

use super::Promise::{Gives, Receives, Refused, Says};
use super::directed::WIDE;
use super::{BENCH_TABLE, Promise, Row, bench_without, fold, merge, place, receiver, supports};
use crate::side::Ties;

/// All rows with ties to the first.
pub fn ties() -> Vec<Row> {
    [decided_by_ties(), whatever_ties()].concat()
}

/// Rows that would be answered otherwise with ties to the second.
pub fn decided_by_ties() -> Vec<Row> {
    let rows = [roots(), elements(), equal_starts(), levels(), folds(), first_receives()];
    to_first(rows.concat())
}

/// Rows that are the same with ties to the second.
pub fn whatever_ties() -> Vec<Row> {
    let rows = [
        bench_without(&roots()),
        unlike(),
        cancelled(),
        no_tie_asked(),
        stricter_or_larger_receives(),
    ];
    to_first(rows.concat())
}

fn to_first(mut rows: Vec<Row>) -> Vec<Row> {
    for row in &mut rows {
        row.call.choices.ties = Ties::First;
    }
    rows
}

/// The roots tie.
fn roots() -> Vec<Row> {
    let row = |first, second, promise| merge(BENCH_TABLE, first, second, promise);
    let mut short = row("U8", "O8[0:D4,0]", Gives("D8,0", "", 2));
    // Just enough; the map would need 23 bytes.
    short.call.output.length = 11;
    vec![
        // Of the bench pairs.
        row("D4,0", "D4,1", Gives("D4,0", "32", 1)),
        row("O12[0:D4,0 4:D4,0]", "O12[2:D4,0]", Gives("O12[0:D4,0]", "30, 31 2, 36 4 2", 2)),
        row("O16[4:D4,0]", "O16[0:U16]", Gives("O16[4:D4,0]", "", 2)),
        row("O8[4:D0,0]", "O8[4:D4,0]", Gives("O8[4:D4,0]", "", 2)),
        // The result is strict if either root is, whoever receives.
        row("S4,0", "D4,1", Gives("S4,0", "32", 1)),
        row("D4,0", "S4,1", Gives("S4,0", "32", 1)),
        row("D*,0", "D*,1", Gives("D*,0", "32", 1)),
        row("Buffer D4,0", "Buffer D4,1", Gives("Buffer D4,0", "32", 1)),
        merge(WIDE, "D4,5", "D4,11", Gives("D4,5", "33", 1)),
        merge(WIDE, "D4,6", "D4,5", Gives("D4,6", "34 6", 1)),
        // Unused and a map are equally strict.
        row("U8", "O8[0:D4,0]", Gives("D8,0", "", 2)),
        row("O8[0:D4,0]", "U8", Gives("O8[0:D4,0]", "", 1)),
        row("U8", "O8[4:D8,0]", Refused(8)),
        row("O8[4:D8,0]", "U8", Gives("O8[4:D8,0]", "", 1)),
        short,
    ]
}

/// Rule 5: the element ties with b, or with b's element.
fn elements() -> Vec<Row> {
    vec![
        place(BENCH_TABLE, "A16,4,D4,0", 4, "D4,1", Gives("A16,4,D4,0", "32", 2)),
        place(BENCH_TABLE, "A16,4,D4,0", 0, "A16,4,D4,1", Gives("A16,4,D4,0", "32", 2)),
        place(BENCH_TABLE, "A*,4,D4,0", 8, "A*,4,D4,1", Gives("A*,4,D4,0", "32", 2)),
        place(BENCH_TABLE, "A16,4,U4", 4, "O4[0:D4,0]", Gives("A16,4,D4,0", "", 3)),
        place(WIDE, "A32,8,A8,4,D4,0", 12, "D4,1", Gives("A32,8,A8,4,D4,0", "32", 3)),
        merge(BENCH_TABLE, "A16,4,D4,0", "D4,1", Gives("A16,4,D4,0", "32", 2)),
    ]
}

/// Rule 6: b ties with an entry that starts where it does, and is the first.
fn equal_starts() -> Vec<Row> {
    vec![
        place(WIDE, "O8[4:D4,1]", 4, "D4,0", Gives("O8[4:D4,0]", "30, 31 4, 32", 2)),
        place(WIDE, "O16[4:D4,5]", 4, "D4,11", Gives("O16[4:D4,11]", "30, 31 4, 33", 2)),
        place(WIDE, "O*[4:D*,9]", 4, "D*,8", Gives("O*[4:D*,8]", "30, 31 4, 32", 2)),
        place(WIDE, "O16[4:U8]", 4, "O8[0:D4,0]", Gives("O16[4:O8[0:D4,0]]", "", 2)),
        place(
            WIDE,
            "O16[0:O8[0:D4,0]]",
            0,
            "D4,1",
            Gives("O16[0:O8[0:D4,1]]", "30, 31 0, 30, 31 0, 32", 3),
        ),
    ]
}

/// Ties at three levels: the roots, two entries, their elements.
fn levels() -> Vec<Row> {
    let report = "30, 31 0, 30, 31 0, 32";
    let given = ["O16[0:A8,4,D4,0]", "O16[0:A8,4,D4,1]"];
    vec![merge(WIDE, given[0], given[1], Gives("O16[0:A8,4,D4,1]", report, 4))]
}

/// The usage so far ties with the next node.
fn folds() -> Vec<Row> {
    let row = |nodes: &[&str], promise| fold(BENCH_TABLE, nodes, promise);
    vec![
        row(&["D4,0", "D4,1"], Gives("D4,0", "38 1, 32", 1)),
        row(&["D4,0", "D4,1", "D4,0"], Gives("D4,0", "38 1, 32", 2)),
        row(&["D4,0", "D4,1", "D4,1"], Gives("D4,0", "38 1, 32, 38 2, 32", 2)),
        row(&["A8,4,D4,0", "D4,1", "D4,1"], Gives("A8,4,D4,0", "38 1, 32, 38 2, 32", 4)),
        row(&["U8", "O8[0:D4,0]", "O8[4:D4,1]"], Gives("D8,0", "38 2, 30, 31 4, 32", 4)),
        row(&["O8[0:D4,0]", "U8", "U8"], Gives("O8[0:D4,0]", "", 2)),
        row(&["U8", "O8[4:D8,0]"], Refused(8)),
    ]
}

/// Equally large and equally strict.
fn first_receives() -> Vec<Row> {
    let pairs = [
        ["D4,0", "D4,1"],
        ["D4,0", "D4,0"],
        ["S4,0", "D4,0"],
        ["D4,0", "S4,0"],
        ["A4,4,D4,0", "A4,2,U2"],
        ["U4", "U4"],
        ["U4", "O4[0:D4,0]"],
        ["O4[0:D4,0]", "U4"],
        ["O4[]", "O4[0:D4,0]"],
        ["D*,0", "D*,8"],
        ["U*", "O*[]"],
    ];
    pairs.map(|[first, second]| receiver(first, second, Receives(1))).into()
}

/// Equal sizes of unlike strictness, and unlike sizes: in either order.
fn unlike() -> Vec<Row> {
    let pairs = [
        (BENCH_TABLE, ["O8[4:D4,1]", "D8,2"], Gives("D8,2", "", 2)),
        (BENCH_TABLE, ["A16,4,D4,0", "D16,3"], Gives("D16,3", "", 1)),
        (BENCH_TABLE, ["O16[]", "A16,4,D4,0"], Gives("A16,4,D4,0", "", 1)),
        (BENCH_TABLE, ["U16", "A16,4,D4,0"], Gives("A16,4,D4,0", "", 1)),
        (WIDE, ["O*[0:D4,0]", "D*,9"], Gives("D*,9", "", 2)),
        (BENCH_TABLE, ["D4,0", "D8,2"], Gives("D8,2", "", 1)),
        (BENCH_TABLE, ["O8[0:D4,0]", "U16"], Gives("D16,0", "", 2)),
        (BENCH_TABLE, ["D4,0", "D*,0"], Gives("D*,0", "", 1)),
    ];
    let both = |(table, [one, other], promise): (_, [_; 2], Promise)| {
        [merge(table, one, other, promise.clone()), merge(table, other, one, promise)]
    };
    pairs.into_iter().flat_map(both).collect()
}

/// Ties at two levels, which exchange the sides twice; and ties in which both sides come to one type.
fn cancelled() -> Vec<Row> {
    let both_maps = Gives("O8[0:D4,1]", "30, 31 0, 30, 31 0, 32", 3);
    let nested = Gives(
        "O16[0:O8[0:D4,1] 8:D4,1]",
        "30, 31 0, 30, 31 0, 30, 31 0, 30, 31 0, 32, 31 8, 30, 31 8, 32",
        7,
    );
    vec![
        merge(BENCH_TABLE, "O8[0:D4,0]", "O8[0:D4,1]", both_maps),
        merge(BENCH_TABLE, "A16,4,D4,0", "A16,4,D4,1", Gives("A16,4,D4,0", "32", 2)),
        merge(WIDE, "O16[0:O8[0:D4,0] 8:D4,0]", "O16[0:O8[0:D4,1] 8:D4,1]", nested),
        merge(WIDE, "D4,0", "D4,13", Gives("D4,13", "", 1)),
        merge(WIDE, "D4,13", "D4,0", Gives("D4,13", "", 1)),
        merge(BENCH_TABLE, "D4,0", "D4,4", Gives("D4,4", "33", 1)),
    ]
}

/// Where it is told already who receives, or nobody does.
fn no_tie_asked() -> Vec<Row> {
    vec![
        // The first of the call place.
        place(BENCH_TABLE, "D4,0", 0, "D4,1", Gives("D4,0", "32", 1)),
        place(BENCH_TABLE, "U8", 0, "O8[0:D4,0]", Gives("D8,0", "", 2)),
        // The lower-starting side of rule 6.
        place(WIDE, "O*[0:D*,9]", 8, "D*,8", Gives("O*[0:D*,9]", "", 2)),
        place(WIDE, "O*[8:D*,8]", 0, "D*,9", Gives("O*[0:D*,9]", "", 2)),
        // Rule 1 comes before.
        place(BENCH_TABLE, "A16,4,O4[0:D4,0]", 4, "U4", Gives("A16,4,O4[0:D4,0]", "", 1)),
        merge(WIDE, "Opaque 5", "Opaque 6", Gives("Opaque 5", "37", 0)),
        merge(BENCH_TABLE, "Buffer D4,0", "Memory D4,1", Gives("Buffer D4,0", "37", 0)),
        fold(BENCH_TABLE, &["D4,0"], Gives("D4,0", "", 0)),
        supports(WIDE, 3, 0, "O8[0:D4,0 4:D4,1]", Says(true)),
        supports(WIDE, 5, 0, "D4,0", Refused(6)),
    ]
}

fn stricter_or_larger_receives() -> Vec<Row> {
    let larger_last = [
        ["A4,4,D4,0", "D4,0"],
        ["O4[0:D4,0]", "A4,4,D4,0"],
        ["U4", "A4,4,D4,0"],
        ["U*", "D*,0"],
        ["D4,0", "U8"],
        ["D4294967295,0", "O*[]"],
    ];
    let both = |[one, other]: [_; 2]| {
        [receiver(one, other, Receives(2)), receiver(other, one, Receives(1))]
    };
    larger_last.into_iter().flat_map(both).collect()
}
