//! How cost grows with nodes: the call merge beside the reference, from 8 to 512 nodes, as a picture with two logarithmic axes.

use crate::bench::sized::named;
use crate::bench::{Times, compared};
use crate::chart::Chart;
use std::fmt::Write;

/// The nodes of both usages together.
const NODES: [usize; 7] = [8, 16, 32, 64, 128, 256, 512];

const SHAPES: [&str; 3] = ["flat maps, interleaved", "flat maps, same offsets", "chains of maps"];

const COLOURS: [&str; 3] = ["#1b6ca8", "#b5482a", "#3a7d44"];

/// The axis of time goes from 0.1 to 1,000 microseconds.
const DECADES: f64 = 4.0;

/// The picture, and its figures as a table in Markdown.
pub fn growth() -> (String, String) {
    let mut chart = frame();
    let mut table =
        "| merged | nodes | ours | reference | ratio |\n|---|---|---|---|---|".to_owned();
    for (name, colour) in SHAPES.into_iter().zip(COLOURS) {
        let shape = named(name).expect("a shape of the bench");
        let points = NODES.map(|nodes| {
            let (_, usages) = (shape.given)(nodes);
            let (_, Times { ours, reference, .. }) = compared(shape.kind, &usages);
            let ratio = ours / reference;
            let _ = write!(
                table,
                "\n| {name} | {nodes} | {ours:.2} µs | {reference:.2} µs | {ratio:.2} |"
            );
            [ours, reference].map(|micros| [across(nodes), up(micros)])
        });
        chart.curves(
            colour,
            &points.map(|[ours, _]| ours),
            &points.map(|[_, reference]| reference),
        );
    }
    (chart.finished(), table)
}

/// The share of the axis of nodes.
fn across(nodes: usize) -> f64 {
    (nodes as f64 / 8.0).log2() / 6.0
}

/// The share of the axis of time.
fn up(micros: f64) -> f64 {
    ((micros.log10() + 1.0) / DECADES).clamp(0.0, 1.0)
}

fn frame() -> Chart {
    let mut chart = Chart::new("Time of a merge by nodes", [720.0, 440.0], 190.0);
    for nodes in NODES {
        chart.mark_across(across(nodes), &nodes.to_string());
    }
    for (micros, label) in
        [(0.1, "0.1 µs"), (1.0, "1 µs"), (10.0, "10 µs"), (100.0, "100 µs"), (1000.0, "1 ms")]
    {
        chart.mark_up(up(micros), label);
    }
    chart.name_across("nodes of both usages");
    chart.name_curves(SHAPES.into_iter().zip(COLOURS));
    chart
}
