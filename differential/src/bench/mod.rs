//! How long the port takes, from bytes to bytes, beside the reference on the same inputs in the same run.

pub mod deep;
mod runs;
mod shapes;
pub mod sized;
mod ties;

pub use runs::{RUNS, Times};
pub use shapes::{leaf, nested_arrays, nested_maps};
pub use ties::tie_rules;

use crate::library::{Library, time};
use crate::notation;
use crate::reading::calls::{MOST_NODES, WORK_AREA};
use crate::reading::streams::{write_list, write_memory};
use crate::reading::tables::write_table;
use crate::reference::timing::{time_decode, time_fold, time_supports};
use crate::side::{Buffer, Call, CallKind, Choices, Side};
use crate::usage::{Table, Usage};
use runs::side_by_side;
use sized::{Given, SHAPES};
use std::time::Duration;

/// The nodes of the shapes that can have any number.
const SIZES: [usize; 2] = [64, MOST_NODES];

/// So often all rows are timed one after the other, so that what the machine does for a while spoils no row.
const ROUNDS: usize = 4;

/// The runs that each row of the table has on each side.
pub const RUNS_OF_RATIOS: usize = ROUNDS * RUNS;

/// About so many nodes and pairings make a run, which then takes a millisecond or two at most.
const RUN: usize = 5_000;

/// A row of the table: the call, what it is given, the nodes and bytes of that, and the pairings of the answer.
#[derive(Clone)]
struct Row {
    call: &'static str,
    given: String,
    nodes: usize,
    bytes: usize,
    pairings: u64,
    times: Times,
}

/// Everything that is timed beside the reference, as one table in Markdown.
pub fn ratios() -> String {
    let mut lines = vec![
        "| call | given | nodes | bytes | pairings | ours, µs | reference, µs | ratio | its function alone, µs |"
            .to_owned(),
        "|---|---|---|---|---|---|---|---|---|".to_owned(),
    ];
    let mut rows = timed();
    for _ in 1..ROUNDS {
        for (row, again) in rows.iter_mut().zip(timed()) {
            row.times = row.times.least(again.times);
        }
    }
    lines.extend(rows.iter().map(Row::line));
    lines.join("\n")
}

/// All rows, timed once.
fn timed() -> Vec<Row> {
    [reading(), asking(), merging(CallKind::Merge), merging(CallKind::Fold)].concat()
}

impl Row {
    fn line(&self) -> String {
        let Row { call, given, nodes, bytes, pairings, times } = self;
        let ratio = times.ours / times.reference;
        let pairings = if *pairings == 0 { String::new() } else { pairings.to_string() };
        let [ours, reference] = [times.ours, times.reference].map(four_digits);
        let alone = times.alone.map_or(String::new(), four_digits);
        format!(
            "| {call} | {given} | {nodes} | {bytes} | {pairings} | {ours} | {reference} | {ratio:.2} | {alone} |"
        )
    }
}

/// A number with at least four digits that count, but none past a millionth.
fn four_digits(number: f64) -> String {
    let places = 3.0 - number.max(0.001).log10().floor();
    format!("{number:.*}", places.max(0.0) as usize)
}

/// `sound` accepts a stream, loads it and looks at each node once; the reference decodes the stream and drops what it has.
fn reading() -> Vec<Row> {
    let row = |what: &str, usage: Usage| {
        let (nodes, stream) = (usage.nodes(), write_memory(&usage));
        let times = (RUN / nodes) as u32;
        let call = sound(stream.clone());
        Row {
            call: "sound",
            given: format!("{what} of {nodes}"),
            nodes,
            bytes: stream.len(),
            pairings: 0,
            times: side_by_side(
                times,
                |start| time(&call, times, start),
                || [time_decode(&stream, times), Duration::ZERO],
            ),
        }
    };
    let sizes = [8, 64, MOST_NODES];
    shapes::READ
        .iter()
        .flat_map(|(what, usage)| sizes.map(|nodes| row(what, usage(nodes))))
        .collect()
}

/// The layout test; the reference is spared the reading of bytes.
fn asking() -> Vec<Row> {
    let row = |(what, table, ty, offset, usage): shapes::Question| {
        let (table, usage) = (notation::table(&table), notation::usage(&usage));
        let (bytes, stream) = (write_table(&table), write_memory(&usage));
        let given = bytes.len() + stream.len();
        let call = Call { kind: CallKind::Supports, table: bytes, ty, offset, ..sound(stream) };
        let times = 500;
        Row {
            call: "supports",
            given: what.to_owned(),
            nodes: usage.nodes(),
            bytes: given,
            pairings: 0,
            times: side_by_side(
                times,
                |start| time(&call, times, start),
                || time_supports(&table, ty, offset, &usage, times),
            ),
        }
    };
    shapes::questions().into_iter().map(row).collect()
}

/// The calls merge or fold on all that they are given here.
fn merging(kind: CallKind) -> Vec<Row> {
    let row = |(given, usages): Given| {
        let nodes = usages.iter().map(Usage::nodes).sum();
        let bytes = usages.iter().map(|usage| write_memory(usage).len()).sum();
        let (pairings, times) = compared(kind, &usages);
        Row { call: kind.name(), given, nodes, bytes, pairings, times }
    };
    let others = if kind == CallKind::Merge { shapes::pairs() } else { Vec::new() };
    let shapes = || SHAPES.iter().filter(|shape| shape.kind == kind);
    let sized = SIZES.into_iter().flat_map(|nodes| shapes().map(move |shape| (shape.given)(nodes)));
    others.into_iter().chain(sized).map(row).collect()
}

/// A merge or a fold, with its pairings: ours beside the reference, which decodes the same streams, merges, encodes its answer and
/// drops all.
pub fn compared(kind: CallKind, usages: &[Usage]) -> (u64, Times) {
    let table = plain_table();
    let call = merging_call(kind, &table, usages);
    let answer = Library.answer(&call);
    assert_eq!(answer.number, 0, "the call is answered");
    let times = calls_in_run(usages, answer.pairings);
    let list = write_list(usages);
    let ours = |start| time(&call, times, start);
    (answer.pairings, side_by_side(times, ours, || time_fold(&table, &list, times)))
}

fn calls_in_run(usages: &[Usage], pairings: u64) -> u32 {
    let nodes: usize = usages.iter().map(Usage::nodes).sum();
    (RUN / (nodes + pairings as usize)).max(1) as u32
}

/// The table of all merges and folds here.
pub fn plain_table() -> Table {
    notation::table("scalar 4; scalar 4")
}

/// The call merge of the first two usages, or fold of all, with buffers that are long enough.
pub fn merging_call(kind: CallKind, table: &Table, usages: &[Usage]) -> Call {
    let list = write_list(usages);
    let output = Buffer { length: list.len(), fill: 0 };
    let nodes: usize = usages.iter().map(Usage::nodes).sum();
    // as much as a report of so many nodes can take, up to a kibibyte
    let report = Buffer { length: (7 * nodes * (nodes - 1)).min(1024), fill: 0 };
    let (first, second) = match kind {
        CallKind::Merge => (write_memory(&usages[0]), write_memory(&usages[1])),
        _ => (list, Vec::new()),
    };
    Call { kind, table: write_table(table), second, output, report, ..sound(first) }
}

pub fn sound(first: Vec<u8>) -> Call {
    Call {
        kind: CallKind::Sound,
        choices: Choices::default(),
        table: write_table(&notation::table("scalar 4")),
        work: WORK_AREA,
        ty: 0,
        offset: 0,
        first,
        second: Vec::new(),
        output: Buffer::NONE,
        report: Buffer::NONE,
    }
}
