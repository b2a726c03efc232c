//! Rows for limits, lengths and the order of refusals.

use super::Promise::{Answered, Gives, Open, Receives, Refused, Says};
use super::{BENCH_TABLE, Promise, Row, fold, merge, place, receiver, sound, supports};
use crate::reading::calls::{MOST_NODES, WORK_AREA};
use crate::side::{Buffer, Call};

/// All rows about limits, lengths and the order of refusals.
pub fn limits() -> Vec<Row> {
    [tables(), streams(), order(), node_counts(), buffers()].concat()
}

/// A row whose call was changed afterwards.
fn changed(row: Row, change: impl FnOnce(&mut Call), promise: Promise) -> Row {
    let mut call = row.call;
    change(&mut call);
    Row { call, promise }
}

fn plain() -> Row {
    place(BENCH_TABLE, "O8[0:D4,0]", 4, "D4,1", Open)
}

/// A call with a table of these bytes, which is accepted or 2.
fn with_table(bytes: Vec<u8>, accepted: bool) -> Row {
    let promise = if accepted { Gives("U8", "", 1) } else { Refused(2) };
    changed(place("", "U8", 4, "U4", Open), |call| call.table = bytes, promise)
}

/// A record's command and its operands of four bytes.
fn record(command: u8, operands: &[u32]) -> Vec<u8> {
    let operands = operands.iter().flat_map(|operand| operand.to_le_bytes());
    std::iter::once(command).chain(operands).collect()
}

/// Fields of size 8: the count of two bytes stands between the operands.
fn fields(fields: &[(u32, u32)]) -> Vec<u8> {
    let mut bytes = record(0x22, &[8, 0]);
    bytes.extend((fields.len() as u16).to_le_bytes());
    let operands = fields.iter().flat_map(|(offset, ty)| [offset.to_le_bytes(), ty.to_le_bytes()]);
    bytes.extend(operands.flatten());
    bytes
}

fn table_of(count: u16, records: &[Vec<u8>], accepted: bool) -> Row {
    with_table([&count.to_le_bytes()[..], &records.concat()].concat(), accepted)
}

fn tables() -> Vec<Row> {
    let scalar = |size| record(0x20, &[size, 0]);
    let many =
        |count: u16, accepted| table_of(count, &vec![vec![0x23]; usize::from(count)], accepted);
    vec![
        with_table(vec![], false),
        with_table(vec![0], false),
        with_table(vec![0, 0], true),
        with_table(vec![0, 0, 0], false),
        many(1_024, true),
        many(1_025, false),
        table_of(1, &[vec![0x25]], false),
        table_of(1, &[vec![0x1f]], false),
        table_of(1, &[scalar(4)], true),
        table_of(1, &[scalar(4), vec![0]], false),
        table_of(2, &[scalar(4)], false),
    ]
    .into_iter()
    .chain(tables_of_two())
    .chain(tables_of_three())
    .collect()
}

/// A scalar of 4, and a record that may lean on it.
fn tables_of_two() -> Vec<Row> {
    let row_of_fields = |count: u32| fields(&(0..count).map(|i| (4 * i, 0)).collect::<Vec<_>>());
    let seconds = [
        (record(0x21, &[16, 0, 4, 0, 4]), true),
        (record(0x21, &[16, 0, 0, 0, 4]), false),
        (record(0x21, &[16, 0, 4, 1, 4]), false),
        (record(0x21, &[16, 7, 4, 0, 0]), true),
        (fields(&[]), true),
        (fields(&[(0, 0), (4, 0)]), true),
        (fields(&[(0, 0), (3, 0)]), false),
        (fields(&[(4, 0), (0, 0)]), false),
        (fields(&[(0, 1)]), false),
        (fields(&[(4_294_967_291, 0)]), true),
        (fields(&[(4_294_967_292, 0)]), false),
        (row_of_fields(64), true),
        (row_of_fields(65), false),
    ];
    let row = |(second, accepted)| table_of(2, &[record(0x20, &[4, 0]), second], accepted);
    seconds.into_iter().map(row).collect()
}

/// A scalar of 4, something else, and a record that may lean on both.
fn tables_of_three() -> Vec<Row> {
    let dynamic = || record(0x20, &[4, 4]);
    let empty = record(0x20, &[0, 0]);
    let others = [
        (vec![0x23], fields(&[(0, 1)]), false),
        (vec![0x24], record(0x21, &[16, 0, 4, 1, 4]), false),
        (empty, fields(&[(0, 1), (0, 1), (0, 0), (4, 1)]), true),
        (dynamic(), fields(&[(0, 0), (4, 1)]), true),
        (dynamic(), fields(&[(0, 1), (4, 0)]), false),
        (dynamic(), fields(&[(4_294_967_292, 1)]), false),
        (dynamic(), record(0x21, &[16, 0, 4, 1, 4]), true),
    ];
    let row =
        |(second, third, accepted)| table_of(3, &[record(0x20, &[4, 0]), second, third], accepted);
    others.into_iter().map(row).collect()
}

/// Streams and lists, well-formed or not.
fn streams() -> Vec<Row> {
    let unused: &[u8] = &[0x00, 1, 8, 0, 0, 0];
    let with = |front: &[u8], back: &[u8]| [front, unused, back].concat();
    let map: &[u8] = &[0x0a, 3, 1, 8, 0, 0, 0, 2, 0, 1, 0, 0, 0];
    let two = |second_offset| with(&with(map, &[second_offset, 0, 0, 0]), &[]);
    let firsts = [
        (vec![], false),
        (vec![0x0a], false),
        (with(&[0x0a], &[]), true),
        (with(&[0x0a], &[0]), false),
        (with(&[], &[]), false),
        (with(&[0x09], &[]), false),
        (with(&[0x0b, 1, 0], &[]), false),
        (vec![0x08, 0, 0, 0, 0], false),
        (vec![0x0a, 0x00, 0, 0, 0, 0, 0], true),
        (vec![0x0a, 0x00, 0, 8, 0, 0, 0], false),
        (vec![0x0a, 0x00, 2, 8, 0, 0, 0], false),
        (vec![0x0a, 0x05, 1, 8, 0, 0, 0], false),
        (vec![0x0a, 0x03, 1, 8, 0, 0, 0, 0, 0], true),
        (vec![0x0a, 0x03, 1, 8, 0, 0, 0, 1, 0], false),
        (two(0), false),
        (two(1), false),
        (two(2), true),
        (with(&[0x0a, 0x04, 1, 8, 0, 0, 0, 0, 0, 0, 0], &[]), false),
        (with(&[0x0a, 0x04, 1, 8, 0, 0, 0, 8, 0, 0, 0], &[]), true),
    ];
    let first = |(bytes, accepted)| {
        let row = place(BENCH_TABLE, "U0", 8, "U0", Open);
        changed(row, |call| call.first = bytes, if accepted { Answered } else { Refused(3) })
    };
    let lists = [
        (vec![0x0b, 0, 0], false),
        (with(&[0x0b, 1, 0], &[]), true),
        (with(&[0x0b, 1, 0], unused), false),
        (with(&[0x0b, 2, 0], unused), true),
        (with(&[0x0b, 2, 0], &[0]), false),
        (with(&[0x0a], &[]), false),
    ];
    let list = |(bytes, accepted)| {
        let row = fold(BENCH_TABLE, &["U0"], Open);
        changed(row, |call| call.first = bytes, if accepted { Answered } else { Refused(3) })
    };
    firsts.into_iter().map(first).chain(lists.into_iter().map(list)).collect()
}

/// Two refusals at once: the earlier one is told.
fn order() -> Vec<Row> {
    let bad = || vec![0xff];
    let long = nested_arrays(MOST_NODES + 1);
    let asked = |ty, text: &str, number| supports("scalar 4; handle", ty, 0, text, Refused(number));
    vec![
        changed(plain(), |call| call.work = 0, Refused(1)),
        changed(plain(), |call| call.work = WORK_AREA - 1, Refused(1)),
        changed(plain(), |call| call.work = WORK_AREA, Answered),
        changed(plain(), |call| call.work = WORK_AREA + 1, Answered),
        changed(plain(), |call| (call.work, call.table) = (0, bad()), Refused(1)),
        changed(plain(), |call| (call.table, call.first) = (bad(), bad()), Refused(2)),
        changed(plain(), |call| (call.first, call.second) = (bad(), bad()), Refused(3)),
        changed(plain(), |call| call.second = bad(), Refused(4)),
        changed(merge("", "D4,0", "D4,0", Open), |call| call.second = bad(), Refused(4)),
        changed(place("", "D4,0", 0, "D4,0", Open), |call| call.second = bad(), Refused(4)),
        place("", "D4,0", 0, "U4", Refused(5)),
        place("", "U4", 0, "D4,0", Refused(5)),
        place(BENCH_TABLE, "U4", 0, &long, Refused(7)),
        place("", &format!("O4[0:D4,0 4:{long}]"), 0, "U4", Refused(5)),
        asked(1, "D4,2", 5),
        asked(2, "U0", 5),
        asked(1, &long, 6),
        asked(0, &long, 7),
        // 10 and 11 come after 8 and 9, and 10 before 11.
        changed(
            place(BENCH_TABLE, "D4,0", 1, "D4,0", Open),
            |call| call.output.length = 0,
            Refused(8),
        ),
        changed(
            place(BENCH_TABLE, "O*[]", u32::MAX, "D4,0", Open),
            |call| (call.output.length, call.report.length) = (0, 0),
            Refused(9),
        ),
        changed(
            place(BENCH_TABLE, "D4,0", 0, "D4,1", Open),
            |call| (call.output.length, call.report.length) = (10, 0),
            Refused(10),
        ),
        changed(
            place(BENCH_TABLE, "D4,0", 0, "D4,1", Open),
            |call| call.report.length = 0,
            Refused(11),
        ),
        changed(receiver("D4,0", "D4,1", Open), |call| call.first = bad(), Receives(0)),
        changed(receiver("D4,0", "D4,1", Open), |call| call.second = bad(), Receives(0)),
        changed(receiver("D4,0", "D4,1", Open), |call| call.second[0] = 0x09, Receives(0)),
        receiver("D4,4294967295", "D4,0", Receives(2)),
        receiver(&long, "U0", Receives(0)),
        receiver("U0", &long, Receives(0)),
    ]
}

/// An array within an array, and so on: so many nodes.
fn nested_arrays(nodes: usize) -> String {
    format!("{}U4", "A4,4,".repeat(nodes - 1))
}

/// A map of leaves: so many nodes.
fn flat_map(nodes: usize) -> String {
    let entries: Vec<String> = (1..nodes).map(|i| format!("{}:D4,0", 4 * i)).collect();
    format!("O4096[{}]", entries.join(" "))
}

/// 512 nodes are answered and 513 are not, in one input or in two.
fn node_counts() -> Vec<Row> {
    let mut rows = nodes_in_each_call(MOST_NODES, Answered, [Receives(2), Receives(1)]);
    let refused = [Receives(0), Receives(0)];
    rows.extend(nodes_in_each_call(MOST_NODES + 1, Refused(7), refused));
    // Neither input has too many by itself.
    rows.push(merge(BENCH_TABLE, &nested_arrays(400), &nested_arrays(400), Refused(7)));
    rows.push(receiver(&nested_arrays(400), &nested_arrays(400), Receives(0)));
    let roomy = Buffer { length: 12_288, fill: 0xff };
    for row in rows.iter_mut().filter(|row| row.call.kind.writes()) {
        (row.call.output, row.call.report) = (roomy, roomy);
    }
    rows
}

/// Calls of so many nodes in all; receiver has promises of its own.
fn nodes_in_each_call(nodes: usize, promise: Promise, parts: [Promise; 2]) -> Vec<Row> {
    let arrays = nested_arrays(nodes);
    let map = flat_map(nodes - 1);
    let (half, other) = (nested_arrays(nodes / 2), nested_arrays(nodes - nodes / 2));
    let [tie, larger] = parts;
    let unlike = format!("Memory {}", flat_map(nodes));
    let mut rows = vec![
        supports(BENCH_TABLE, 0, 0, &arrays, promise.clone()),
        sound(&arrays, true),
        place(BENCH_TABLE, &map, 0, "D4,1", promise.clone()),
        merge(BENCH_TABLE, &half, &other, promise.clone()),
        merge(BENCH_TABLE, &format!("Buffer {map}"), "Buffer D2,0", promise.clone()),
        merge(BENCH_TABLE, &unlike, "Opaque 0", promise.clone()),
        fold(BENCH_TABLE, &vec!["D4,0"; nodes], promise.clone()),
        fold(BENCH_TABLE, &[&half, &other], promise.clone()),
        receiver(&half, &other, tie),
        receiver(&nested_arrays(nodes - 1), "U0", larger),
    ];
    rows[1].promise = if promise == Answered { Says(true) } else { promise };
    rows
}

/// Buffers that just fit, that do not by one byte, and that are longer than what is written.
fn buffers() -> Vec<Row> {
    // Writes 11 bytes and reports 7.
    let example = super::printed_example();
    let row = |output, report, fill, refused| {
        let change = |call: &mut Call| {
            call.output = Buffer { length: output, fill };
            call.report = Buffer { length: report, fill };
        };
        let promise = if refused == 0 { example.promise.clone() } else { Refused(refused) };
        changed(example.clone(), change, promise)
    };
    vec![
        row(11, 7, 0xff, 0),
        row(10, 7, 0xff, 10),
        row(11, 6, 0xff, 11),
        row(10, 6, 0x5a, 10),
        row(0, 0, 0xff, 10),
        row(16, 16, 0xff, 0),
        row(16, 16, 0x00, 0),
        row(11, 64, 0x5a, 0),
        row(64, 7, 0x5a, 0),
    ]
}
