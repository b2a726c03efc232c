//! How much stack the deepest calls need: each is made in a process of its own, on a thread with a stack of a given size, and
//! the size is halved towards the smallest that suffices.

use crate::bench::{leaf, merging_call, nested_arrays, nested_maps, plain_table, sound};
use crate::library::Library;
use crate::notation;
use crate::reading::streams::write_memory;
use crate::reading::tables::write_table;
use crate::side::{Call, CallKind, Side};
use crate::usage::{Table, Usage};
use std::process::{Command, Stdio};
use std::{env, thread};

/// The largest stack that is tried, which a thread of Rust has by default, and the step, in KiB.
const MOST: usize = 2048;
const STEP: usize = 8;

/// A call: its name on the command line, and in words.
struct Deep {
    name: &'static str,
    words: &'static str,
    call: fn() -> Call,
}

/// The deepest that is known is `arrays-types`.
const CALLS: [Deep; 7] = [
    Deep {
        name: "chain",
        words: "merge: a chain of 510 maps over a leaf, and a leaf",
        call: || merge(&plain_table(), [nested_maps(511), leaf()]),
    },
    Deep {
        name: "chains",
        words: "merge: two chains of 255 maps",
        call: || merge(&plain_table(), [nested_maps(256), nested_maps(256)]),
    },
    Deep {
        name: "arrays",
        words: "merge: two nests of 255 arrays",
        call: || merge(&plain_table(), [nested_arrays(256), nested_arrays(256)]),
    },
    Deep {
        name: "types",
        words: "merge: a leaf whose type is nested 1,023 deep, and a chain of 510 maps",
        call: || merge(&nested_types(), [notation::usage("D4,1023"), nested_maps(511)]),
    },
    Deep {
        name: "arrays-types",
        words: "merge: two nests of 254 arrays, one over such a leaf, the other over two maps and a leaf",
        call: || merge(&nested_types(), ["D4,1023", "O4[0:O4[0:D4,0]]"].map(inside_arrays)),
    },
    Deep { name: "fold", words: "fold: a chain of 255 maps and 253 leaves", call: fold },
    Deep {
        name: "supports",
        words: "supports: a type nested 1,023 deep, a chain of 511 maps",
        call: supports,
    },
];

/// The table of the smallest stacks, in Markdown, and the largest of them in KiB.
pub fn table() -> Result<(String, usize), String> {
    let mut lines = vec!["| call | stack, KiB |".to_owned(), "|---|---|".to_owned()];
    let mut most = 0;
    for Deep { name, words, .. } in CALLS {
        let kib = smallest(name)?;
        lines.push(format!("| {words} | {kib} |"));
        most = most.max(kib);
    }
    Ok((lines.join("\n"), most))
}

/// The smallest size that suffices, in steps.
fn smallest(name: &str) -> Result<usize, String> {
    let (mut few, mut enough) = (0, MOST / STEP);
    if !runs(name, enough * STEP)? {
        return Err(format!("{name}: {MOST} KiB are too few"));
    }
    while enough - few > 1 {
        let half = few.midpoint(enough);
        if runs(name, half * STEP)? { enough = half } else { few = half }
    }
    Ok(enough * STEP)
}

fn runs(name: &str, kib: usize) -> Result<bool, String> {
    let own = env::current_exe().map_err(|error| error.to_string())?;
    let status = Command::new(own)
        .args(["stack-of", name, &kib.to_string()])
        .stdout(Stdio::null())
        .stderr(Stdio::null())
        .status()
        .map_err(|error| error.to_string())?;
    Ok(status.success())
}

/// Makes one of the calls on a thread with so large a stack. If that is too small, the process ends here by a signal.
pub fn run(name: &str, kib: &str) -> Result<String, String> {
    let kib: usize = kib.parse().map_err(|_| format!("{kib} is no number"))?;
    let deep = CALLS.iter().find(|deep| deep.name == name);
    let call = (deep.ok_or_else(|| format!("no call is named {name}"))?.call)();
    let run = thread::Builder::new().stack_size(kib << 10).spawn(move || Library.answer(&call));
    let answer = run.map_err(|error| error.to_string())?.join();
    let answer = answer.map_err(|_| "the call panicked".to_owned())?;
    (answer.number == 0)
        .then(|| format!("stack-of: {name} is answered with {kib} KiB"))
        .ok_or_else(|| format!("{name} is refused with {}", answer.number))
}

fn merge(table: &Table, pair: [Usage; 2]) -> Call {
    merging_call(CallKind::Merge, table, &pair)
}

fn fold() -> Call {
    let leaves = (0..253).map(|_| leaf());
    let usages: Vec<Usage> = std::iter::once(nested_maps(256)).chain(leaves).collect();
    merging_call(CallKind::Fold, &plain_table(), &usages)
}

fn supports() -> Call {
    let table = write_table(&nested_types());
    let stream = write_memory(&nested_maps(512));
    Call { kind: CallKind::Supports, table, ty: 1_023, ..sound(stream) }
}

/// 1,024 types, each of which but the first has the one before it as its only field.
fn nested_types() -> Table {
    let wrapped: String = (0..1_023).map(|inner| format!("; fields 4 {{0:{inner}}}")).collect();
    notation::table(&format!("scalar 4{wrapped}"))
}

fn inside_arrays(inner: &str) -> Usage {
    notation::usage(&format!("{}{inner}", "A4,4,".repeat(254)))
}
