//! Rows for each rule and each conflict, and for faults that hardly ever show at random.

use super::Promise::{Gives, Open, Refused, Says};
use super::{BENCH_TABLE, Row, fold, merge, place, receiver, sound, supports};

/// The table of the rows for faults of support.
const SUPPORT: &str = "scalar 4; elements 20 (4, 0, 4); fields 4294967295 {4294967291:0}; \
    elements 16 (4, 0, 4); elements 16+4 (4, 0, 4)";

/// A table with all that makes a difference in asking.
pub const WIDE: &str = "scalar 4; scalar 4; scalar 0; fields 8 {0:0 4:1}; elements 16 (4, 0, 4); \
    handle; failed; fields 8 {0:2 0:0 4:1 8:2}; elements 0+4 (4, 0, 0); fields 8+4 {0:0 4:1 8:8}; \
    elements 32 (8, 3, 4); handle; fields 12 {0:2 0:3 8:0}; fields 4 {0:0}";

/// All directed rows.
pub fn directed() -> Vec<Row> {
    [receivers(), supported(), sizes(), leaves(), arrays(), maps(), tops_and_folds(), soundness()]
        .concat()
}

fn receivers() -> Vec<Row> {
    let nodes =
        ["U4", "O4[0:D4,0]", "A4,4,D4,0", "D4,0", "S4,1", "U8", "D8,2", "O*[]", "D*,0", "U*"];
    let pair = |(first, second): (&&str, &&str)| receiver(first, second, Open);
    let all = nodes.iter().flat_map(|first| nodes.iter().map(move |second| (first, second)));
    all.map(pair).collect()
}

fn supported() -> Vec<Row> {
    vec![
        supports(SUPPORT, 1, 16, "D4,0", Says(false)),
        supports(SUPPORT, 2, 4_294_967_291, "D8,0", Says(true)),
        supports(SUPPORT, 2, u32::MAX, "O0[1:U0]", Says(false)),
        supports(SUPPORT, 3, 16, "A0,4,D4,0", Says(false)),
        supports(SUPPORT, 1, 0, "A18,4,D4,0", Says(false)),
        supports(SUPPORT, 4, 0, "A*,4,D4,0", Says(false)),
        // One past the end, and beyond.
        supports(SUPPORT, 3, 16, "D0,0", Says(true)),
        supports(SUPPORT, 1, 20, "O0[]", Open),
        supports(SUPPORT, 4, 20, "O0[]", Open),
        supports(SUPPORT, 4, 20, "D0,0", Open),
        supports(SUPPORT, 4, 24, "D0,0", Open),
        // Zero-size fields that share an offset: every one is asked.
        supports(WIDE, 7, 0, "D4,0", Says(true)),
        supports(WIDE, 7, 0, "D0,2", Says(true)),
        supports(WIDE, 7, 8, "D0,2", Says(true)),
        supports(WIDE, 12, 0, "O8[0:D4,0 4:D4,1]", Says(true)),
        supports(WIDE, 12, 4, "D4,1", Says(true)),
        // Dynamic strides.
        supports(WIDE, 8, 400, "D4,0", Says(true)),
        supports(WIDE, 8, 0, "A*,4,D4,0", Says(true)),
        supports(WIDE, 8, 0, "A16,4,D4,0", Says(false)),
        supports(WIDE, 9, 400, "D4,0", Says(true)),
        supports(WIDE, 9, 8, "A*,4,D4,0", Says(true)),
        supports(WIDE, 9, 0, "O*[0:D4,0 8:A*,4,D4,0]", Says(true)),
        supports(WIDE, 9, 0, "D*,9", Says(true)),
        supports(WIDE, 9, 0, "D*,3", Says(false)),
        // The offset within an element, whole arrays, shifted arrays.
        supports(WIDE, 10, 12, "D4,1", Says(true)),
        supports(WIDE, 10, 8, "A24,8,D8,3", Says(true)),
        supports(WIDE, 10, 4, "A24,8,D8,3", Says(false)),
        supports(WIDE, 10, 0, "A24,8,D8,3", Says(false)),
        supports(WIDE, 10, 0, "A32,8,O8[4:D4,1]", Says(true)),
        supports(WIDE, 10, 0, "A32,4,D4,0", Says(false)),
        supports(WIDE, 10, 0, "A32,16,D8,3", Says(false)),
        supports(WIDE, 10, 0, "A16,4,D4,0", Says(false)),
        supports(WIDE, 8, 2, "A*,4,D4,0", Says(false)),
        supports(SUPPORT, 1, 2, "A16,4,D4,0", Says(false)),
        // Entries: at 0 by the whole layout, else by a component; all of them.
        supports(WIDE, 3, 0, "O8[0:D8,3]", Says(true)),
        supports(WIDE, 13, 0, "O4[0:D4,13]", Says(true)),
        supports(WIDE, 3, 4, "O4[0:D4,1]", Says(true)),
        supports(WIDE, 3, 0, "O8[0:D4,0 4:D4,0]", Says(false)),
        supports(WIDE, 3, 0, "O8[4:O4[0:D4,1]]", Says(true)),
        supports(WIDE, 4, 0, "O16[4:D16,4]", Says(false)),
        supports(WIDE, 4, 4, "D16,4", Says(false)),
        supports(WIDE, 3, 0, "U*", Says(true)),
        supports(WIDE, 3, 9, "U4", Says(true)),
        supports(WIDE, 3, 0, "D9,0", Says(false)),
        supports(WIDE, 0, 0, "D*,0", Says(true)),
        supports(WIDE, 0, 1, "D4,0", Says(false)),
        supports(WIDE, 4, 0, "D*,0", Says(false)),
        supports(WIDE, 5, 0, "D4,0", Refused(6)),
        supports(WIDE, 6, 0, "U0", Refused(6)),
        supports(WIDE, 14, 0, "U0", Refused(5)),
        supports(WIDE, 5, 0, "D4,14", Refused(5)),
    ]
}

/// Refusals 8 and 9, and rules 1 and 3.
fn sizes() -> Vec<Row> {
    vec![
        merge(BENCH_TABLE, "O*[0:D*,0]", "O*[4294967294:D4,0]", Refused(9)),
        place(BENCH_TABLE, "U4", 4_294_967_295, "U4", Refused(9)),
        place(BENCH_TABLE, "D4,0", 1, "U4", Refused(8)),
        place(BENCH_TABLE, "D4,0", 0, "U*", Refused(8)),
        place(BENCH_TABLE, "U*", 4_294_967_295, "D4,0", Gives("D*,0", "", 1)),
        place(BENCH_TABLE, "O*[]", 4_294_967_295, "D4,0", Refused(9)),
        place(BENCH_TABLE, "O8[0:D4,0]", 8, "U0", Gives("O8[0:D4,0]", "", 1)),
        place(BENCH_TABLE, "U16", 4, "D4,0", Gives("D16,0", "", 1)),
        place(BENCH_TABLE, "U16", 4, "O8[4:D4,0]", Gives("O16[4:D4,0]", "", 1)),
        place(BENCH_TABLE, "U16", 0, "O8[4:D4,0]", Gives("D16,0", "", 2)),
        place(BENCH_TABLE, "U16", 0, "O8[0:D4,0 4:D4,1]", Open),
        place(BENCH_TABLE, "O16[8:D4,0]", 4, "O8[4:S4,1]", Open),
        place(BENCH_TABLE, "O16[0:D4,0 8:D4,0]", 0, "O12[0:D4,1 8:D4,1]", Open),
    ]
}

/// Rule 4.
fn leaves() -> Vec<Row> {
    vec![
        merge(WIDE, "D4,0", "S4,0", Gives("S4,0", "", 1)),
        merge(WIDE, "S4,0", "D4,0", Gives("S4,0", "", 1)),
        merge(WIDE, "D8,3", "S4,0", Gives("S8,3", "", 1)),
        place(WIDE, "D8,3", 0, "O8[0:S4,0]", Gives("S8,3", "", 2)),
        place(WIDE, "D8,3", 4, "O4[0:S4,1]", Gives("D8,3", "", 1)),
        place(WIDE, "D16,4", 0, "A16,4,S4,0", Gives("D16,4", "", 1)),
        // c is asked if a's type does not support b, at d = 0 only.
        place(WIDE, "D4,0", 0, "D4,13", Gives("D4,13", "", 1)),
        place(WIDE, "D4,13", 0, "D4,0", Gives("D4,13", "", 1)),
        place(WIDE, "D8,0", 4, "D4,13", Gives("D8,0", "32", 1)),
        place(WIDE, "D8,0", 4, "D4,0", Gives("D8,0", "32", 1)),
        place(WIDE, "D8,3", 4, "D4,0", Gives("D8,3", "32", 1)),
        place(WIDE, "D8,3", 0, "D8,7", Open),
        place(WIDE, "D8,7", 0, "D8,3", Open),
        // Handles and failed types end the asking.
        place(WIDE, "D4,5", 0, "D4,0", Gives("D4,5", "33", 1)),
        place(WIDE, "D4,0", 0, "D4,5", Gives("D4,5", "33", 1)),
        place(WIDE, "D4,0", 0, "S4,11", Gives("S4,11", "33", 1)),
        place(WIDE, "D4,6", 0, "D4,0", Gives("D4,6", "34 6", 1)),
        place(WIDE, "D4,0", 0, "D4,6", Gives("D4,6", "34 6", 1)),
        place(WIDE, "D4,0", 0, "S4,6", Gives("S4,6", "34 6", 1)),
        place(WIDE, "D4,5", 0, "D4,5", Gives("D4,5", "", 1)),
        place(WIDE, "D4,6", 0, "O4[0:D4,0]", Gives("D4,6", "30, 31 0, 34 6", 2)),
        place(WIDE, "D8,5", 4, "D4,0", Gives("D8,5", "33", 1)),
        place(WIDE, "D4,5", 0, "D4,6", Gives("D4,5", "33", 1)),
    ]
}

/// Rule 5.
fn arrays() -> Vec<Row> {
    vec![
        place(WIDE, "A16,4,D4,0", 4, "D4,0", Gives("A16,4,D4,0", "", 2)),
        place(WIDE, "A32,8,O8[0:D4,0]", 12, "D4,1", Gives("A32,8,O8[0:D4,0 4:D4,1]", "", 2)),
        place(WIDE, "A32,8,O8[0:D4,0]", 12, "D8,3", Gives("A32,8,O8[0:D4,0]", "35 8", 1)),
        place(WIDE, "A32,8,O8[0:D4,0]", 8, "D8,3", Gives("A32,8,D8,3", "", 3)),
        place(WIDE, "A32,8,D4,0", 0, "D8,3", Gives("A32,8,D8,3", "", 2)),
        place(WIDE, "A32,8,D4,0", 12, "D4,0", Refused(8)),
        place(WIDE, "A32,8,U4", 12, "D4,0", Refused(8)),
        place(WIDE, "A32,8,O4[0:D4,0]", 12, "U1", Gives("A32,8,O4[0:D4,0]", "", 1)),
        place(WIDE, "A32,8,D8,3", 0, "A32,8,O8[0:D4,0]", Gives("A32,8,D8,3", "", 3)),
        place(WIDE, "A32,8,D8,3", 8, "A16,8,D8,3", Gives("A32,8,D8,3", "", 2)),
        place(WIDE, "A32,8,D8,3", 4, "A16,8,D8,3", Gives("A32,8,D8,3", "35 8", 1)),
        place(WIDE, "A32,8,D8,3", 0, "A32,16,D8,3", Gives("A32,8,D8,3", "35 8", 1)),
        place(WIDE, "A32,16,O16[]", 0, "A16,4,D4,0", Open),
        place(WIDE, "A*,8,D8,3", 8, "A*,8,D8,3", Gives("A*,8,D8,3", "", 2)),
        place(WIDE, "A*,8,D8,3", 0, "D*,8", Gives("A*,8,D8,3", "35 8", 1)),
        place(WIDE, "A*,8,D8,3", 4_294_967_288, "D8,3", Gives("A*,8,D8,3", "", 2)),
        place(WIDE, "A32,8,D8,0", 0, "D8,1", Gives("A32,8,D8,1", "32", 2)),
        place(WIDE, "A32,8,A8,4,D4,0", 12, "D4,0", Gives("A32,8,A8,4,D4,0", "", 3)),
        merge(WIDE, "A8,8,D8,0", "A8,4,D4,0", Open),
    ]
}

/// Rule 6.
fn maps() -> Vec<Row> {
    vec![
        merge(BENCH_TABLE, "O8[4:D4,1]", "O8[0:D4,0]", Gives("O8[0:D4,0 4:D4,1]", "", 2)),
        place(
            BENCH_TABLE,
            "O*[1:D4294967295,0 8:D4,0]",
            12,
            "D2,0",
            Gives("O*[1:D4294967295,0 8:D4,0 12:D2,0]", "", 1),
        ),
        place(WIDE, "O*[1:D4294967295,0 8:D4,0]", 8, "D2,0", Refused(9)),
        place(WIDE, "O*[1:D4294967295,0]", 0, "D1,0", Open),
        // Joined downwards with several; each side receives once.
        place(WIDE, "O32[0:D4,0 4:D4,1 8:D4,0]", 0, "D12,12", Gives("O32[0:D12,12]", "", 4)),
        place(WIDE, "O32[0:D16,4]", 4, "D4,0", Gives("O32[0:D16,4]", "", 2)),
        place(WIDE, "O32[4:D4,1]", 0, "D8,3", Gives("O32[0:D8,3]", "", 2)),
        place(WIDE, "O32[0:D16,4]", 4, "D4,1", Gives("O32[0:D16,4]", "30, 31 0, 32", 2)),
        place(WIDE, "O32[4:D4,0 8:D4,0]", 0, "D12,12", Open),
        place(WIDE, "O32[0:D8,3 8:D8,0]", 0, "D16,1", Open),
        // Equal starts: `merge_mem(b, entry)`, with no straddle.
        place(WIDE, "O8[4:D4,1]", 4, "D4,0", Gives("O8[4:D4,1]", "30, 31 4, 32", 2)),
        place(WIDE, "O16[4:D4,0]", 4, "D8,3", Gives("O16[4:D8,3]", "", 2)),
        place(WIDE, "O16[4:D8,3]", 4, "D4,0", Gives("O16[4:D8,3]", "", 2)),
        place(WIDE, "O*[4:D*,9]", 4, "D4,0", Gives("O*[4:D*,9]", "", 2)),
        place(WIDE, "O*[4:D4,0]", 4, "D*,9", Gives("O*[4:D*,9]", "", 2)),
        // Straddles.
        place(WIDE, "O32[0:D8,3]", 4, "D8,3", Gives("O32[]", "36 0 4", 1)),
        place(WIDE, "O32[8:D8,3]", 4, "D8,3", Gives("O32[]", "36 8 4", 1)),
        place(WIDE, "O32[0:D4,0 4:D8,3]", 2, "D8,3", Gives("O32[0:D4,0]", "36 4 2", 1)),
        place(WIDE, "O*[0:D8,3]", 4, "D*,9", Gives("O*[]", "36 0 4", 1)),
        place(WIDE, "O*[4:D*,9]", 0, "D8,3", Gives("O*[]", "36 4 0", 1)),
        place(WIDE, "O*[0:D*,9]", 8, "D*,8", Gives("O*[0:D*,9]", "", 2)),
        place(WIDE, "O*[8:D*,8]", 0, "D*,9", Gives("O*[0:D*,9]", "", 2)),
        place(WIDE, "O*[0:D*,9]", 100, "D4,0", Gives("O*[0:D*,9]", "", 2)),
        // A conflict and a pairing before the straddle: only 36 remains, and the pairing counts.
        place(WIDE, "O32[0:D4,0 4:D4,0]", 2, "D6,1", Gives("O32[]", "36 0 2", 2)),
        place(WIDE, "O*[0:D8,0 2:D8,0 6:D8,1]", 7, "D4,0", Open),
        place(WIDE, "O*[0:D4,0 2:D16,0]", 4, "D8,1", Open),
        // An insertion replaces; an entry of size 0 at the same place does not overlap.
        place(WIDE, "O8[4:D0,2]", 4, "D4,1", Gives("O8[4:D4,1]", "", 1)),
        place(WIDE, "O8[4:D4,1]", 4, "D0,2", Gives("O8[4:D0,2]", "", 1)),
        place(WIDE, "O8[0:D4,1]", 4, "D0,2", Gives("O8[0:D4,1 4:D0,2]", "", 1)),
        place(WIDE, "O8[]", 4, "O4[0:D4,1]", Gives("O8[4:O4[0:D4,1]]", "", 1)),
        // Nested reports.
        merge(WIDE, "O16[0:D8,3 8:D8,3]", "O16[4:D4,0 12:D4,0]", Open),
        merge(WIDE, "O16[0:O8[0:D4,0] 8:D4,0]", "O16[0:O8[0:D4,1] 8:D4,1]", Open),
        merge(WIDE, "O16[0:O8[0:D4,5]]", "O16[0:O8[0:D4,1] 4:D4,0 8:D8,6]", Open),
    ]
}

fn tops_and_folds() -> Vec<Row> {
    vec![
        merge(WIDE, "Opaque 5", "Opaque 5", Gives("Opaque 5", "", 0)),
        merge(WIDE, "Opaque 5", "Opaque 6", Gives("Opaque 5", "37", 0)),
        merge(WIDE, "Opaque 5", "Memory U0", Gives("Opaque 5", "37", 0)),
        merge(WIDE, "Buffer D4,0", "Memory D4,0", Gives("Buffer D4,0", "37", 0)),
        merge(WIDE, "Buffer D4,0", "Buffer D4,0", Gives("Buffer D4,0", "", 1)),
        merge(WIDE, "Buffer O8[0:D4,1]", "Buffer D8,3", Gives("Buffer D8,3", "30, 31 0, 32", 2)),
        merge(WIDE, "Opaque 14", "Opaque 14", Refused(5)),
        fold(WIDE, &["D4,0"], Gives("D4,0", "", 0)),
        fold(WIDE, &["O0[]"], Gives("O0[]", "", 0)),
        fold(WIDE, &["D4,0", "D4,1"], Gives("D4,1", "38 1, 32", 1)),
        fold(WIDE, &["D4,0", "D4,1", "D4,0"], Gives("D4,0", "38 1, 32, 38 2, 32", 2)),
        fold(WIDE, &["D4,0", "D8,3", "D4,1", "D16,4"], Open),
        fold(WIDE, &["O8[0:D4,1]", "D8,3", "A16,4,D4,0", "D16,4"], Open),
        fold(WIDE, &["U0", "U0", "U0"], Gives("U0", "", 2)),
        fold(WIDE, &["O8[0:D4,0]", "O8[4:D4,1]", "O12[8:D4,0]"], Open),
        fold(WIDE, &["A32,16,D4,0", "O32[8:D4,0]", "D4,0"], Refused(8)),
        fold(WIDE, &["O*[4294967294:D4,0]", "O*[0:D*,0]"], Refused(9)),
        fold(WIDE, &["D4,14", "U0"], Refused(5)),
    ]
}

fn soundness() -> Vec<Row> {
    let rows = [
        ("U0", true),
        ("U*", true),
        ("D0,0", false),
        ("S0,0", false),
        ("D4,0", true),
        ("D*,0", true),
        ("O0[]", false),
        ("O8[]", true),
        ("O*[]", true),
        ("A0,4,D4,0", false),
        ("A1,4,D4,0", true),
        ("A*,4,D4,0", true),
        ("A16,4,U4", true),
        ("A16,4,U0", false),
        ("A16,4,D2,0", false),
        ("A16,4,D8,0", false),
        ("A16,4,D*,0", false),
        ("A16,4,O4[0:D0,0]", false),
        ("O8[0:U0]", false),
        ("O8[0:D4,0 4:D4,0]", true),
        ("O8[0:D4,0 3:D4,0]", false),
        ("O8[4:D8,0]", false),
        ("O8[8:U1]", false),
        ("O8[0:D*,0]", false),
        ("O*[0:D*,0]", true),
        ("O*[0:D4,0 4:U*]", true),
        ("O*[0:D*,0 4:D4,0]", false),
        ("O*[4294967291:D4,0]", true),
        ("O*[4294967292:D4,0]", false),
        ("O*[0:D4294967295,0 4294967295:D*,0]", true),
        ("O*[0:O8[0:D4,0 2:D4,0]]", false),
        ("O*[0:A8,4,A4,4,D4,0]", true),
        ("O*[0:A8,4,A4,2,D4,0]", false),
    ];
    rows.into_iter().map(|(usage, yes)| sound(usage, yes)).collect()
}
