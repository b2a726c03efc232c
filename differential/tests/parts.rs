//! The harness's own parts: notation, recorded file, shrinking, generators.

use differential::compare::{Category, compare};
use differential::generate::{Calls, Source};
use differential::notation::{report_words, table, top, usage};
use differential::reading::Reading;
use differential::reading::faults::{Fault, Faults};
use differential::reading::streams::{read_top, write_top};
use differential::reading::tables::{read_table, write_table};
use differential::record::{Recorded, from_bytes, to_bytes};
use differential::reference::Reference;
use differential::side::{Call, CallKind, Choices, all_choices};
use differential::theorems::{Theorems, small_calls};
use std::fs::{self, DirEntry};
use std::{env, io, process};

#[test]
fn notation_reads_what_it_writes() {
    let usages = ["U0", "U*", "D4,0", "S*,7", "O8[0:D4,0 4:S4,1]", "O*[]", "A16,4,O4[0:U4]"];
    for text in usages {
        assert_eq!(usage(text).to_string(), text);
    }
    for text in ["Opaque 3", "Buffer A*,4,D4,0", "Memory U0"] {
        assert_eq!(top(text).to_string(), text);
        assert_eq!(read_top(&write_top(&top(text)), Faults::NONE), Some(top(text)));
    }
    let text = "scalar 4; elements 0+4 (4, 0, 0); fields 8 {0:0 4:0}; fields 0 {}; handle; failed";
    assert_eq!(table(text).to_string(), text);
    assert_eq!(read_table(&write_table(&table(text)), Faults::NONE), Some(table(text)));
    let report = [0x38, 1, 0, 0x30, 0x31, 0, 1, 0, 0, 0x36, 2, 0, 0, 0, 0, 0, 0, 0];
    assert_eq!(report_words(&report), "38 1, 30, 31 256, 36 2 0");
}

#[test]
fn recorded_file_is_read_back() {
    let of_kind = |kind| Calls::new(kind, Source::Damaged, 3).by_turns().take(50);
    let calls = CallKind::ALL.into_iter().flat_map(of_kind);
    let answered = |call| Recorded::of(&Reading::FAULTLESS, call);
    let list: Vec<Recorded> = calls.map(answered).collect();
    let back = from_bytes(&to_bytes(&list)).expect("the file is well-formed");
    assert_eq!(back.len(), list.len());
    for (one, other) in list.iter().zip(&back) {
        assert_eq!((&one.call, &one.answer), (&other.call, &other.answer));
    }
}

#[test]
fn generated_calls_are_repeatable() {
    for source in Source::ALL.into_iter().filter(|source| *source != Source::Deep) {
        let calls = || Calls::new(CallKind::Place, source, 5).take(20).collect::<Vec<_>>();
        assert_eq!(calls(), calls());
    }
}

/// A fault of the reading is found at random and shrunk to the smallest row that shows it.
#[test]
fn differences_are_shrunk() {
    let faulty = Reading::with(Fault::TieToFirst);
    let choices = Choices::default();
    let category = Category { kind: CallKind::Fold, source: Source::Sound, choices };
    let difference = compare([&Reference, &faulty], category, 10_000, 1).expect_err("a difference");
    let shown = difference.to_string();
    assert!(shown.contains("first   List(O0[] | U0)"), "{shown}");
}

/// The files of `specs/` that theorems are written to, one after the other.
fn specs_of(theorems: &Theorems, name: &str) -> String {
    let folder = env::temp_dir().join(format!("{name}-{}", process::id()));
    theorems.write(&folder).expect("the crate can be written");
    assert!(theorems.write(&folder).is_err(), "a crate is not written over");
    let files = fs::read_dir(folder.join("crates/recorded_rows/specs")).expect("there are specs");
    let text = |file: io::Result<DirEntry>| fs::read_to_string(file?.path());
    let texts: io::Result<String> = files.map(text).collect();
    fs::remove_dir_all(&folder).expect("the crate can be removed");
    texts.expect("all files are text")
}

#[test]
fn every_small_call_is_a_theorem() {
    let mut theorems = Theorems::default();
    theorems.add("row", &small_calls(400, 3));
    let calls = Calls::new(CallKind::Sound, Source::Large, 3).take(20);
    theorems.add("large", &calls.map(|call| Recorded::of(&Reference, call)).collect::<Vec<_>>());
    let specs = specs_of(&theorems, "every_small_call");
    assert_eq!(theorems.count() + theorems.left_out(), 420);
    assert!(theorems.count() >= 400 && theorems.left_out() > 0);
    assert_eq!(specs.matches(" = refl\n").count(), theorems.count());
    assert_eq!(specs.matches("pub mod Rows").count(), theorems.count().div_ceil(150));
    for call in ["receiver", "supports", "place", "merge", "fold"] {
        for choices in all_choices() {
            let given = format!("({call}_call (choices_of {}) (", choices.number());
            assert!(specs.contains(&given), "{given}");
        }
    }
    assert!(specs.contains("(sound_call (") && !specs.contains("(sound_call (choices_of"));
}

/// Streams with the same bytes are told apart.
#[test]
fn theorems_say_which_stream_receives() {
    let calls = Calls::new(CallKind::Receiver, Source::Sound, 1).take(1);
    let same = |call: Call| Call { second: call.first.clone(), ..call };
    let recorded = calls.map(|call| Recorded::of(&Reference, same(call))).collect::<Vec<_>>();
    let mut theorems = Theorems::default();
    theorems.add("same", &recorded);
    let specs = specs_of(&theorems, "which_stream");
    assert_eq!(recorded[0].answer.number, 2);
    assert!(
        specs.contains("same0 : ◌≡◌ {A = List (List ℕ)} (receiver_call (choices_of 0) (10 ∷ "),
        "{specs}"
    );
    assert!(specs.contains(" ∷ []) ∷ (2 ∷ []) ∷ [])\nunfolding "), "{specs}");
}
