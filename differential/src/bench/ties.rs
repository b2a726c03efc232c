//! What the tie rule costs: ours with ties to the first beside ours with ties to the second, on usages that tie at many levels. The
//! reference has ties to the second alone.

use super::runs::in_turns;
use super::sized::{Shape, named};
use super::{ROUNDS, SIZES, calls_in_run, four_digits, merging_call, plain_table};
use crate::library::{Library, time};
use crate::side::{Call, Side, Ties};
use crate::usage::Usage;
use std::time::Duration;

/// Those of the timed shapes that tie at each level, or at each offset.
const SHAPES: [&str; 5] = [
    "flat maps, same offsets",
    "nested arrays",
    "chains of maps",
    "maps of maps, same offsets",
    "one-leaf maps, equal sizes",
];

/// A row: the call, what it is given, and its nodes; then of ties to the first and to the second, the pairings and the microseconds.
#[derive(Clone)]
struct Row {
    call: &'static str,
    given: String,
    nodes: usize,
    pairings: [u64; 2],
    times: [f64; 2],
}

/// The table in Markdown.
pub fn tie_rules() -> String {
    let mut lines = vec![
        "| call | given | nodes | pairings, ties to the first | to the second | µs, ties to the first | to the second | ratio |"
            .to_owned(),
        "|---|---|---|---|---|---|---|---|".to_owned(),
    ];
    let mut rows = timed();
    for _ in 1..ROUNDS {
        for (row, again) in rows.iter_mut().zip(timed()) {
            row.times = [0, 1].map(|rule| row.times[rule].min(again.times[rule]));
        }
    }
    lines.extend(rows.iter().map(Row::line));
    lines.join("\n")
}

/// All rows, timed once.
fn timed() -> Vec<Row> {
    let shapes = || SHAPES.map(|name| named(name).expect("a shape of the bench"));
    SIZES.into_iter().flat_map(|nodes| shapes().map(|shape| Row::of(shape, nodes))).collect()
}

impl Row {
    fn of(shape: &Shape, nodes: usize) -> Row {
        let (given, usages) = (shape.given)(nodes);
        let calls = [Ties::First, Ties::Second].map(|ties| {
            let mut call = merging_call(shape.kind, &plain_table(), &usages);
            call.choices.ties = ties;
            call
        });
        let pairings = calls.each_ref().map(pairings);
        let times = calls_in_run(&usages, pairings[0]);
        let run = |call| move |start| [time(call, times, start), Duration::ZERO];
        let [first, second] = calls.each_ref().map(run);
        let [[first, _], [second, _]] = in_turns(times, [&first, &second]);
        let nodes = usages.iter().map(Usage::nodes).sum();
        Row { call: shape.kind.name(), given, nodes, pairings, times: [first, second] }
    }

    fn line(&self) -> String {
        let Row { call, given, nodes, pairings: [first, second], times } = self;
        let ratio = times[0] / times[1];
        let [to_first, to_second] = times.map(four_digits);
        format!(
            "| {call} | {given} | {nodes} | {first} | {second} | {to_first} | {to_second} | {ratio:.2} |"
        )
    }
}

fn pairings(call: &Call) -> u64 {
    let answer = Library.answer(call);
    assert_eq!(answer.number, 0, "the call is answered");
    answer.pairings
}
