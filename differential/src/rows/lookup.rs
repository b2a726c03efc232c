//! Rows with the strict lookup: document 01's sentences, but that an array contains nothing at an
//! index equal to its length.

use super::Promise::{Gives, Receives, Refused, Says};
use super::{BENCH_TABLE, Promise, Row, bench_without, fold, merge, place, receiver, supports};
use crate::side::{Lookup, Ties};

/// An array of four with a dynamic stride, so that dynamic usages fit it, and one without a length.
const DYNAMIC: &str = "scalar 4; elements 16+4 (4, 0, 4); elements 0+4 (4, 0, 0); scalar 4";

/// The smallest table in which sound usages are looked up at a length.
const BYTES: &str = "scalar 1+1; elements 1+1 (1, 0, 1)";

/// An array of four, and two arrays of two of these: one behind the other, and 4 bytes apart.
const NESTED: &str =
    "scalar 4; elements 16 (4, 0, 4); elements 32 (16, 1, 2); elements 40 (20, 1, 2)";

/// An array of four in front of a number, in front of something empty, and behind a number; empty
/// fields at both ends.
const STRUCTS: &str = "scalar 4; scalar 0; elements 16 (4, 0, 4); fields 20 {0:2 16:0}; \
    fields 16 {0:2 16:1}; fields 20 {0:0 4:2}; fields 8 {0:1 0:0 4:0 8:1}";

/// Arrays that are longer than their elements; of one; of empty elements; of one that is longer than
/// its stride.
const UNEVEN: &str = "scalar 4; scalar 0; elements 24 (4, 0, 4); elements 4 (4, 0, 1); \
    elements 8 (4, 1, 2); fields 8 {0:0 4:0}; elements 8 (4, 5, 1)";

/// An array that ends where 32 bits do.
const HIGH: &str = "scalar 4; elements 4294967295 (4294967295, 0, 1)";

/// All rows with the strict lookup, those with ties to the first besides included.
pub fn lookup() -> Vec<Row> {
    [decided_by_lookup(), whatever_lookup()].concat()
}

/// Rows that would be answered otherwise with the lenient lookup.
pub fn decided_by_lookup() -> Vec<Row> {
    let asked = [at_length(), entries_at_length(), nested_lengths()].concat();
    let merged = [merges(), reports_longer(), places(), folds()].concat();
    strict([asked, merged, with_ties(decided_with_ties())].concat())
}

/// Rows that are the same with the lenient lookup.
pub fn whatever_lookup() -> Vec<Row> {
    let asked = [below_length(), without_length(), ends_of_fields(), elsewhere()].concat();
    let merged =
        [bench_without(&merges()), merges_alike(), places_alike(), never_looked_up()].concat();
    strict([asked, merged, with_ties(alike_with_ties())].concat())
}

fn strict(mut rows: Vec<Row>) -> Vec<Row> {
    for row in &mut rows {
        row.call.choices.lookup = Lookup::Strict;
    }
    rows
}

/// The rows with ties to the first.
fn with_ties(mut rows: Vec<Row>) -> Vec<Row> {
    for row in &mut rows {
        row.call.choices.ties = Ties::First;
    }
    rows
}

/// Questions of supports over a table: type, offset, usage, and whether it is supported.
fn questions(table: &str, asked: &[(u32, u32, &str, bool)]) -> Vec<Row> {
    let row = |&(ty, at, usage, yes)| supports(table, ty, at, usage, Says(yes));
    asked.iter().map(row).collect()
}

/// The usage asked stands at the length.
fn at_length() -> Vec<Row> {
    let of_bench = [(3, 16, "D0,0", false), (3, 16, "S0,0", false), (3, 16, "O0[0:D0,0]", false)];
    let dynamic = [(1, 16, "D*,0", false), (1, 16, "D0,0", false)];
    let bytes = [(1, 1, "D*,0", false), (1, 1, "O*[0:D*,0]", false)];
    let uneven = [
        (2, 16, "D0,0", false),
        (3, 4, "D0,0", false),
        (4, 8, "D0,1", false),
        // Within element 0, but at index 1.
        (6, 4, "D0,0", false),
    ];
    // Its end is capped, so that it has no bytes there.
    let high = [(1, 4_294_967_295, "D4,0", false)];
    [
        questions(BENCH_TABLE, &of_bench),
        questions(DYNAMIC, &dynamic),
        questions(BYTES, &bytes),
        questions(UNEVEN, &uneven),
        questions(HIGH, &high),
    ]
    .concat()
}

/// An entry of the map asked stands at the length.
fn entries_at_length() -> Vec<Row> {
    let of_bench = [
        (3, 0, "O16[16:D0,0]", false),
        (3, 0, "O16[12:D4,0 16:D0,0]", false),
        (3, 8, "O8[8:D0,0]", false),
        // No component contains it, so none is asked whether it supports an Unused.
        (3, 0, "O16[16:U0]", false),
    ];
    let dynamic = [
        (1, 0, "O*[16:D*,0]", false),
        (1, 4, "O*[12:D*,0]", false),
        (1, 0, "O*[0:D4,0 16:D0,0]", false),
        (1, 0, "O*[16:U*]", false),
    ];
    let bytes = [(1, 0, "O*[1:D*,0]", false), (1, 0, "O*[1:O*[0:D*,0]]", false)];
    [questions(BENCH_TABLE, &of_bench), questions(DYNAMIC, &dynamic), questions(BYTES, &bytes)]
        .concat()
}

/// The array stands in another one or in a struct.
fn nested_lengths() -> Vec<Row> {
    let nested = [
        (2, 32, "D0,1", false),
        (2, 32, "D0,0", false),
        (3, 16, "D0,0", false),
        (3, 36, "D0,0", false),
        (2, 0, "A32,16,O16[16:D0,0]", false),
        (2, 0, "O32[16:O16[16:D0,0]]", false),
    ];
    let structs =
        [(4, 16, "D0,0", false), (5, 20, "D0,0", false), (5, 0, "O20[0:D4,0 20:D0,0]", false)];
    [questions(NESTED, &nested), questions(STRUCTS, &structs)].concat()
}

fn merges() -> Vec<Row> {
    let conflict = || Gives("D16,3", "30, 31 16, 32", 2);
    let row = |first, second, promise| merge(BENCH_TABLE, first, second, promise);
    let of_bytes = || Gives("D*,1", "30, 31 1, 32", 2);
    vec![
        row("O16[16:D0,0]", "D16,3", conflict()),
        row("D16,3", "O16[16:D0,0]", conflict()),
        row("O16[16:O0[0:D0,0]]", "D16,3", conflict()),
        row("O16[16:S0,0]", "D16,3", Gives("S16,3", "30, 31 16, 32", 2)),
        row("O16[12:D4,0 16:D0,0]", "D16,3", Gives("D16,3", "30, 31 16, 32", 3)),
        row("O16[0:D4,1 16:D0,0]", "D16,3", Gives("D16,3", "30, 31 0, 32, 31 16, 32", 3)),
        row("Buffer O16[16:D0,0]", "Buffer D16,3", Gives("Buffer D16,3", "30, 31 16, 32", 2)),
        // The second map receives; at equal starts the leaf does.
        row(
            "O32[0:D16,3]",
            "O32[0:O16[16:D0,0]]",
            Gives("O32[0:D16,3]", "30, 31 0, 30, 31 0, 30, 31 16, 32", 4),
        ),
        merge(STRUCTS, "O20[20:D0,0]", "D20,5", Gives("D20,5", "30, 31 20, 32", 2)),
        // Sound usages.
        merge(BYTES, "O*[1:D*,0]", "D*,1", of_bytes()),
        merge(BYTES, "D*,1", "O*[1:D*,0]", of_bytes()),
    ]
}

/// The report has 7 bytes, and none with the lenient lookup.
fn reports_longer() -> Vec<Row> {
    let row = |report, promise| {
        let mut row = merge(BENCH_TABLE, "O16[16:D0,0]", "D16,3", promise);
        row.call.report.length = report;
        row
    };
    vec![row(7, Gives("D16,3", "30, 31 16, 32", 2)), row(6, Refused(11)), row(0, Refused(11))]
}

fn places() -> Vec<Row> {
    vec![
        place(BENCH_TABLE, "D16,3", 16, "D0,0", Gives("D16,3", "32", 1)),
        place(BENCH_TABLE, "D16,3", 16, "O0[0:D0,0]", Gives("D16,3", "32", 1)),
        place(BENCH_TABLE, "D16,3", 12, "O4[4:D0,0]", Gives("D16,3", "32", 1)),
        place(DYNAMIC, "D*,1", 16, "D*,0", Gives("D*,1", "32", 1)),
        place(NESTED, "D32,2", 0, "A32,16,O16[16:D0,0]", Gives("D32,2", "32", 1)),
        // Rule 6: the entry starts lower and receives.
        place(DYNAMIC, "O*[4:D*,1]", 20, "D*,0", Gives("O*[4:D*,1]", "30, 31 4, 32", 2)),
        place(DYNAMIC, "O*[4:D*,1]", 20, "D0,0", Gives("O*[4:D*,1]", "30, 31 4, 32", 2)),
        // Rule 5: r is 16, the length of the element's own array.
        place(NESTED, "A40,20,D16,1", 16, "D0,0", Gives("A40,20,D16,1", "32", 2)),
        place(NESTED, "A40,20,D16,1", 36, "D0,0", Gives("A40,20,D16,1", "32", 2)),
    ]
}

fn folds() -> Vec<Row> {
    let row = |nodes: &[&str], promise| fold(BENCH_TABLE, nodes, promise);
    let of_bytes = |nodes: &[&str], promise| fold(BYTES, nodes, promise);
    let once = || Gives("D16,3", "38 1, 30, 31 16, 32", 2);
    let twice = "38 1, 30, 31 1, 32, 38 2, 30, 31 1, 32";
    vec![
        row(&["D16,3", "O16[16:D0,0]"], once()),
        row(&["O16[16:D0,0]", "D16,3"], once()),
        // The first two stand side by side, and both then stand in the third.
        row(&["O16[16:D0,0]", "O16[0:D16,3]", "D16,3"], Gives("D16,3", "38 2, 30, 31 16, 32", 5)),
        of_bytes(&["O*[1:D*,0]", "D*,1"], Gives("D*,1", "38 1, 30, 31 1, 32", 2)),
        of_bytes(&["D*,1", "O*[1:D*,0]", "O*[1:D*,0]"], Gives("D*,1", twice, 4)),
    ]
}

/// With ties to the first, too. The last three would be others with ties to the second.
fn decided_with_ties() -> Vec<Row> {
    // b's leaf is first where it meets the entry, and so it receives what comes behind.
    let kept = || Gives("O*[0:D*,1]", "30, 31 0, 30, 31 0, 32, 31 16, 30, 31 0, 32", 5);
    let given = ["O*[0:D*,3]", "O*[0:D*,1 16:D0,0]"];
    vec![
        supports(DYNAMIC, 1, 16, "D*,0", Says(false)),
        place(BENCH_TABLE, "D16,3", 16, "D0,0", Gives("D16,3", "32", 1)),
        merge(BENCH_TABLE, "O16[16:D0,0]", "D16,3", Gives("D16,3", "30, 31 16, 32", 2)),
        merge(BYTES, "O*[1:D*,0]", "D*,1", Gives("D*,1", "30, 31 1, 32", 2)),
        // The first map receives; at equal starts the leaf does.
        merge(
            DYNAMIC,
            "O*[4:D*,1]",
            "O*[4:O*[16:D*,0]]",
            Gives("O*[4:D*,1]", "30, 31 4, 30, 31 4, 30, 31 16, 32", 4),
        ),
        place(DYNAMIC, given[0], 0, given[1], kept()),
        merge(DYNAMIC, given[0], given[1], kept()),
        fold(
            BENCH_TABLE,
            &["D16,3", "D16,1", "O16[16:D0,0]"],
            Gives("D16,3", "38 1, 32, 38 2, 30, 31 16, 32", 3),
        ),
    ]
}

/// Elements below the length, the last one and empty ones included.
fn below_length() -> Vec<Row> {
    let of_bench = [
        (3, 12, "D4,0", true),
        (3, 12, "D0,0", true),
        (3, 15, "D0,0", false),
        (3, 0, "D0,0", true),
        (3, 0, "O16[0:D4,0 12:D4,0]", true),
        (3, 0, "D16,3", true),
        // Whole arrays and parts that end at the length; but none of size 0 there.
        (3, 0, "A16,4,D4,0", true),
        (3, 8, "A8,4,D4,0", true),
        (3, 16, "A0,4,D4,0", false),
    ];
    let dynamic = [(1, 12, "D*,0", true), (1, 0, "O*[12:D*,0]", true)];
    let nested = [
        (2, 16, "D16,1", true),
        (2, 16, "D0,0", true),
        (2, 28, "D4,0", true),
        (3, 20, "D0,0", true),
        (2, 0, "A32,16,O16[12:D0,0]", true),
    ];
    let uneven = [(3, 0, "D4,0", true), (4, 4, "D0,1", true), (6, 0, "D8,5", true)];
    [
        questions(BENCH_TABLE, &of_bench),
        questions(DYNAMIC, &dynamic),
        questions(BYTES, &[(1, 0, "D*,0", true)]),
        questions(NESTED, &nested),
        questions(UNEVEN, &uneven),
    ]
    .concat()
}

fn without_length() -> Vec<Row> {
    let asked = [
        (2, 0, "D4,0", true),
        (2, 0, "D0,0", true),
        (2, 0, "D*,0", true),
        (2, 400, "D4,0", true),
        (2, 400, "D*,0", true),
        (2, 0, "A*,4,D4,0", true),
        (2, 0, "O*[0:D4,0 8:D*,0]", true),
    ];
    questions(DYNAMIC, &asked)
}

/// A struct's fields contain what stands where they end.
fn ends_of_fields() -> Vec<Row> {
    let asked = [
        (6, 8, "D0,1", true),
        (6, 0, "O8[8:D0,1]", true),
        (6, 4, "D0,0", true),
        (6, 4, "D4,0", true),
        // At the length of an array, but contained by the field behind it, too.
        (3, 16, "D0,0", true),
        (4, 16, "D0,1", true),
        (3, 0, "O20[16:D4,0]", true),
    ];
    questions(STRUCTS, &asked)
}

/// Above the length, and at it what its element would not support, or what is supported anyway.
fn elsewhere() -> Vec<Row> {
    let of_bench = [
        (3, 16, "D0,1", false),
        (3, 16, "D0,3", false),
        (3, 16, "O0[0:D0,1]", false),
        (3, 16, "U0", true),
        (3, 16, "U*", true),
        (3, 16, "O0[]", true),
        (3, 0, "O16[16:O0[0:D0,1]]", false),
    ];
    let uneven = [
        (2, 16, "D4,0", false),
        (2, 17, "D0,0", false),
        (2, 20, "D0,0", false),
        (2, 24, "D0,0", false),
    ];
    [
        questions(BENCH_TABLE, &of_bench),
        questions(UNEVEN, &uneven),
        questions(DYNAMIC, &[(1, 20, "D*,0", false)]),
        questions(BYTES, &[(1, 2, "D*,0", false)]),
        vec![supports(BENCH_TABLE, 4, 16, "D0,0", Refused(6))],
    ]
    .concat()
}

fn merges_alike() -> Vec<Row> {
    let row = |first, second, promise| merge(BENCH_TABLE, first, second, promise);
    vec![
        row("O16[12:D4,0]", "D16,3", Gives("D16,3", "", 2)),
        row("O16[12:D0,0]", "D16,3", Gives("D16,3", "", 2)),
        row("O16[16:U0]", "D16,3", Gives("D16,3", "", 2)),
        row("O16[16:O0[]]", "D16,3", Gives("D16,3", "", 2)),
        row("O16[16:D0,1]", "D16,3", Gives("D16,3", "30, 31 16, 32", 2)),
        merge(BYTES, "O*[0:D*,0]", "D*,1", Gives("D*,1", "", 2)),
        merge(DYNAMIC, "O*[16:D*,0]", "D*,2", Gives("D*,2", "", 2)),
        merge(STRUCTS, "O8[8:D0,1]", "D8,6", Gives("D8,6", "", 2)),
    ]
}

fn places_alike() -> Vec<Row> {
    let alike = |table, ty: &'static str, at, b| place(table, ty, at, b, Gives(ty, "", 1));
    vec![
        alike(BENCH_TABLE, "D16,3", 12, "D4,0"),
        alike(BENCH_TABLE, "D16,3", 16, "U0"),
        alike(DYNAMIC, "D*,1", 12, "D*,0"),
        alike(DYNAMIC, "D*,2", 0, "D*,0"),
        alike(DYNAMIC, "D*,2", 400, "D*,0"),
        alike(STRUCTS, "D8,6", 8, "D0,1"),
        alike(STRUCTS, "D20,3", 16, "D0,0"),
        // Both types are asked, the second at 0, where no length is.
        place(UNEVEN, "D4,0", 0, "D4,3", Gives("D4,3", "", 1)),
        place(BENCH_TABLE, "D16,0", 0, "D16,3", Gives("D16,0", "32", 1)),
        place(BENCH_TABLE, "D16,3", 16, "D4,0", Refused(8)),
    ]
}

/// Nothing is asked at a length.
fn never_looked_up() -> Vec<Row> {
    let side_by_side = || Gives("O16[0:D16,3 16:D0,0]", "", 2);
    vec![
        place(BENCH_TABLE, "O20[4:D16,3]", 20, "D0,0", Gives("O20[4:D16,3 20:D0,0]", "", 1)),
        // At the start of the second element: r is 0.
        place(BENCH_TABLE, "A32,16,D16,3", 16, "D0,0", Gives("A32,16,D16,3", "", 2)),
        fold(BENCH_TABLE, &["O16[16:D0,0]"], Gives("O16[16:D0,0]", "", 0)),
        fold(BENCH_TABLE, &["O16[16:D0,0]", "O16[0:D16,3]"], side_by_side()),
        merge(BENCH_TABLE, "Buffer O16[16:D0,0]", "D16,3", unlike()),
        receiver("O16[16:D0,0]", "D16,3", Receives(2)),
        receiver("D16,3", "O16[16:D0,0]", Receives(1)),
        receiver("D4,0", "D4,1", Receives(2)),
    ]
}

fn unlike() -> Promise {
    Gives("Buffer O16[16:D0,0]", "37", 0)
}

/// With ties to the first, too.
fn alike_with_ties() -> Vec<Row> {
    vec![
        merge(BENCH_TABLE, "D4,0", "D4,1", Gives("D4,0", "32", 1)),
        // The first map receives, and its leaf ends where the second's stands.
        merge(
            BENCH_TABLE,
            "O32[0:D16,3]",
            "O32[0:O16[16:D0,0]]",
            Gives("O32[0:D16,3 16:D0,0]", "", 3),
        ),
        merge(BENCH_TABLE, "O16[12:D4,0]", "D16,3", Gives("D16,3", "", 2)),
        place(BENCH_TABLE, "A16,4,D4,0", 4, "D4,1", Gives("A16,4,D4,0", "32", 2)),
        fold(BENCH_TABLE, &["D4,0", "D4,1", "D4,1"], Gives("D4,0", "38 1, 32, 38 2, 32", 2)),
        supports(BENCH_TABLE, 3, 12, "D4,0", Says(true)),
        receiver("D4,0", "D4,1", Receives(1)),
        receiver("O16[16:D0,0]", "D16,3", Receives(2)),
    ]
}
