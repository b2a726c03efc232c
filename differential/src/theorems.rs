//! Answered calls as theorems about the definitions of document 01.
//!
//! Each theorem says that the definition of a call, applied to all that goes in, computes exactly
//! all that came back, the buffers afterwards included. It is proved by `refl` or not at all.

use crate::generate::{Calls, Source};
use crate::notation::with_last_run;
use crate::record::Recorded;
use crate::side::{Answer, Buffer, Call, CallKind, Choices};
use std::path::Path;
use std::{fs, io};

/// The crate that is written, as a folder below `crates`.
const CRATE: &str = "recorded_rows";

/// How many theorems stand in a file.
const ROWS_IN_FILE: usize = 150;

/// The longest inputs, together, and the longest buffer that the prover is asked to compute with.
const LONGEST: usize = 700;

/// Where generated calls come from: the other sources make calls that are too long.
const SOURCES: [Source; 5] =
    [Source::Sound, Source::Unsound, Source::Damaged, Source::Tied, Source::Brink];

/// What each file of theorems begins with.
const HEADER: &str = "\
-- Calls with their answers, the Rust's or, under choices that it does not have, the independent reading's: the definitions compute
-- them. Written by a program.
use Rattle.std.specs.Prelude.{◌≡◌, refl, ℕ, Bool, true, false, List, [], ◌∷◌, ◌++◌, replicate}
use Rattle.definitions.specs.If.{when◌then◌else◌}
use Rattle.definitions.specs.Command.{command_at}
use Rattle.definitions.specs.Stream.{read_node, read_node_in, top_of, memory_of, list_of}
use Rattle.definitions.specs.Table.{table_of}
use Rattle.definitions.specs.Requests.Choices.{choices_of}
use Rattle.definitions.specs.Support.{supports, supports_in}
use Rattle.definitions.specs.Place.{place, place_in, merge_mem, fold}
use Rattle.definitions.specs.Calls.{Answer, Written, part_of, receiver_of, receiver_call, supports_call, place_call, merge_call, fold_call, sound_call}
";

/// All definitions that stay folded unless a theorem names them.
const UNFOLDED: &str = "when◌then◌else◌ command_at read_node read_node_in top_of memory_of list_of table_of \
    supports supports_in place place_in merge_mem fold receiver_of receiver_call supports_call place_call \
    merge_call fold_call sound_call";

/// Theorems to be written, and how many calls were left out.
#[derive(Default)]
pub struct Theorems {
    texts: Vec<String>,
    left_out: usize,
}

impl Theorems {
    /// A theorem for each call that is small enough, named after its place in the list.
    pub fn add(&mut self, name: &str, list: &[Recorded]) {
        for (index, recorded) in list.iter().enumerate() {
            match is_small(&recorded.call) {
                true => self.texts.push(theorem(&format!("{name}{index}"), recorded)),
                false => self.left_out += 1,
            }
        }
    }

    pub fn count(&self) -> usize {
        self.texts.len()
    }

    /// How many calls were too long.
    pub fn left_out(&self) -> usize {
        self.left_out
    }

    /// Writes the crate into a repository, which must not have it yet.
    pub fn write(&self, repository: &Path) -> io::Result<()> {
        let crates = repository.join("crates");
        fs::create_dir_all(&crates)?;
        let folder = crates.join(CRATE);
        fs::create_dir(&folder)?;
        for part in ["src", "specs", "proofs"] {
            fs::create_dir(folder.join(part))?;
        }
        fs::write(folder.join("src/lib.rt"), "// Theorems alone, in specs/.\n#![tactic(auto)]\n")?;
        fs::write(folder.join("proofs/Lib.antt"), "-- `refl` proves all of specs/.\n")?;
        let mut modules =
            String::from("-- What the Rust and the reading say of the definitions.\n");
        for (index, texts) in self.texts.chunks(ROWS_IN_FILE).enumerate() {
            modules += &format!("pub mod Rows{index}\n");
            let text = format!("{HEADER}\n{}", texts.join("\n"));
            fs::write(folder.join(format!("specs/Rows{index}.antt")), text)?;
        }
        fs::write(folder.join("specs/Lib.antt"), modules)
    }
}

/// So many generated calls in all, each small enough, with the answers of who judges them. Every
/// call and every source has its share.
pub fn small_calls(count: usize, seed: u64) -> Vec<Recorded> {
    let sources = |kind| SOURCES.map(|source| (kind, source));
    let categories: Vec<_> = CallKind::ALL.into_iter().flat_map(sources).collect();
    let calls = |(index, &(kind, source)): (usize, &(CallKind, Source))| {
        let share = (count + index) / categories.len();
        Calls::new(kind, source, seed).by_turns().filter(is_small).take(share)
    };
    let calls = categories.iter().enumerate().flat_map(calls);
    calls.map(Recorded::judged).collect()
}

/// Whether the prover can be asked to compute the call.
fn is_small(call: &Call) -> bool {
    let inputs = call.table.len() + call.first.len() + call.second.len();
    inputs.max(call.output.length).max(call.report.length) <= LONGEST
}

/// The theorem about a call, below the call in document 01's notation.
fn theorem(name: &str, recorded: &Recorded) -> String {
    let shown = recorded.call.to_string();
    let comment: String = shown.lines().map(|line| format!("-- {line}\n")).collect();
    let equation = equation(recorded);
    format!("{comment}{name} : {equation}\nunfolding {UNFOLDED}\n{name} = refl\n")
}

/// The definition's result on one side, the recorded one on the other.
fn equation(Recorded { call, answer }: &Recorded) -> String {
    let Call { kind, choices, work, ty, offset, output, report, .. } = *call;
    let [table, first, second] = [&call.table, &call.first, &call.second].map(|part| list(part));
    let setting = match kind.takes_choices() {
        true => format!("{} {table} {work}", chosen(choices)),
        false => format!("{table} {work}"),
    };
    let buffers = format!("{} {}", filled(output), report.length);
    let given = match kind {
        CallKind::Receiver => return receiver_equation(choices, &first, &second, answer.number),
        CallKind::Supports => format!("{setting} {ty} {offset} {first}"),
        CallKind::Place => format!("{setting} {first} {offset} {second} {buffers}"),
        CallKind::Merge => format!("{setting} {first} {second} {buffers}"),
        CallKind::Fold => format!("{setting} {first} {buffers}"),
        CallKind::Sound => format!("{setting} {first}"),
    };
    let (result, told) = match kind.writes() {
        true => ("Written", written(answer)),
        false => ("Answer", numbers(answer)),
    };
    format!("◌≡◌ {{A = {result}}} ({kind}_call {given}) {told}")
}

/// The receiving stream, and which of the two it is: they may have the same bytes.
fn receiver_equation(choices: Choices, first: &str, second: &str, number: u64) -> String {
    let [empty, one, two] = [&[][..], &[1], &[2]].map(list);
    let (part, which) = match number {
        1 => (first, &one),
        2 => (second, &two),
        _ => (empty.as_str(), &empty),
    };
    let told = format!("({part} ∷ {which} ∷ [])");
    let given = format!("{} {first} {second}", chosen(choices));
    format!(
        "◌≡◌ {{A = List (List ℕ)}} (receiver_call {given} ∷ part_of (receiver_of {given}) {one} {two} ∷ []) {told}"
    )
}

fn chosen(choices: Choices) -> String {
    format!("(choices_of {})", choices.number())
}

/// The numbers of an answer.
fn numbers(answer: &Answer) -> String {
    let Answer { number, yes, usage_length, report_length, pairings, .. } = answer;
    let yes = *yes == 1;
    format!(
        "(record {{ number = {number}; yes = {yes}; usage = {usage_length}; report = {report_length}; pairings = {pairings} }})"
    )
}

/// The numbers of an answer and the two buffers afterwards.
fn written(answer: &Answer) -> String {
    let [output, report] = [&answer.output, &answer.report].map(|bytes| {
        let (front, last) = with_last_run(bytes);
        format!("{} ++ {}", list(front), filled(last))
    });
    format!("(record {{ answer = {}; output = {output}; report = {report} }})", numbers(answer))
}

fn filled(buffer: Buffer) -> String {
    format!("(replicate {} {})", buffer.length, buffer.fill)
}

fn list(bytes: &[u8]) -> String {
    let elements: String = bytes.iter().map(|byte| format!("{byte} ∷ ")).collect();
    format!("({elements}[])")
}
