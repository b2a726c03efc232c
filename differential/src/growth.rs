//! How the instructions of a call grow with its nodes, as callgrind counts them (command `growth`; it needs `valgrind`).

use crate::bench::sized::named;
use crate::bench::{merging_call, plain_table};
use crate::library::time;
use crate::questions::figures::number;
use std::env;
use std::process::Command;

/// The shapes that are counted.
const SHAPES: [&str; 4] =
    ["nested arrays", "chains of maps", "flat maps, same offsets", "flat map taken by one entry"];

/// The nodes of the smaller and of the larger input.
const NODES: [usize; 2] = [128, 512];

/// How many times the instructions may grow from the one to the other.
const MOST: f64 = 5.0;

/// The table in Markdown, and the shapes that grow more than they may.
pub fn table() -> Result<(String, Vec<&'static str>), String> {
    let [few, many] = NODES;
    let mut lines = vec![
        format!("| merged | instructions, {few} nodes | {many} nodes | growth |"),
        "|---|---|---|---|".to_owned(),
    ];
    let mut past = Vec::new();
    for shape in SHAPES {
        let [few, many] = [instructions(shape, few)?, instructions(shape, many)?];
        let growth = many / few;
        lines.push(format!("| {shape} | {} | {} | {growth:.2} |", number(few), number(many)));
        if growth > MOST {
            past.push(shape);
        }
    }
    Ok((lines.join("\n"), past))
}

/// The instructions of one call: what more of them take, without all else that the process does.
fn instructions(shape: &str, nodes: usize) -> Result<f64, String> {
    let (one, more) = (1, 21);
    let counted = |times| collected(shape, nodes, times);
    Ok((counted(more)? - counted(one)?) / f64::from(more - one))
}

/// The instructions of a process that makes so many calls.
fn collected(shape: &str, nodes: usize, times: u32) -> Result<f64, String> {
    let own = env::current_exe().map_err(|error| error.to_string())?;
    let output = Command::new("valgrind")
        .args(["--tool=callgrind", "--callgrind-out-file=/dev/null"])
        .arg(own)
        .args(["calls-of", shape, &nodes.to_string(), &times.to_string()])
        .output()
        .map_err(|error| format!("valgrind cannot be run: {error}"))?;
    let said = String::from_utf8_lossy(&output.stderr);
    let count = said.lines().find_map(|line| line.split_once("Collected : "));
    count
        .and_then(|(_, count)| count.trim().parse().ok())
        .ok_or_else(|| format!("valgrind has not counted: {said}"))
}

/// Makes so many calls of a shape.
pub fn run(shape: &str, nodes: &str, times: &str) -> Result<String, String> {
    let found = named(shape).ok_or_else(|| format!("no shape is named {shape}"))?;
    let count = |word: &str| word.parse::<u32>().map_err(|_| format!("{word} is no number"));
    let (_, usages) = (found.given)(count(nodes)? as usize);
    let call = merging_call(found.kind, &plain_table(), &usages);
    time(&call, count(times)?, 0);
    Ok(format!("calls-of: {times} calls of {shape} with {nodes} nodes"))
}
