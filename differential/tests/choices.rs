//! Calls with other choices than the default: how they are made, who answers them, what is recorded.

use differential::compare::{Category, check_promise, choices_show, choices_shown, compare, judge};
use differential::generate::{Calls, Source};
use differential::notation::report_commands;
use differential::reading::Reading;
use differential::reading::faults::{Fault, Faults};
use differential::reading::sound::is_sound;
use differential::reading::streams::{read_list, read_top};
use differential::record::{Recorded, check_coverage, from_bytes, to_bytes};
use differential::reference::Reference;
use differential::rows::{Row, lookup, ties};
use differential::side::{
    Answer, Buffer, Call, CallKind, Choices, Lookup, Side, Ties, all_choices,
};
use differential::theorems::small_calls;
use std::fs::read;

fn to_first() -> Choices {
    Choices::default().with_ties(Ties::First)
}

fn strict() -> Choices {
    Choices::default().with_lookup(Lookup::Strict)
}

fn both() -> Choices {
    to_first().with_lookup(Lookup::Strict)
}

/// What is answered to the call with these choices.
fn answer_with(call: &Call, choices: Choices) -> Answer {
    Reading::FAULTLESS.answer(&call.clone().with(choices))
}

/// A generated call that was not refused, made with these choices.
fn answered(kind: CallKind, choices: Choices) -> Call {
    let mut calls = Calls::new(kind, Source::Sound, 1).with(choices);
    let is_answered = |call: &Call| Reading::FAULTLESS.answer(call).number == 0;
    calls.find(is_answered).expect("some call is answered")
}

#[test]
fn choices_are_numbered_from_the_default_on() {
    assert_eq!(all_choices(), [Choices::default(), to_first(), strict(), both()]);
    assert!(all_choices().iter().map(|choices| choices.number()).eq(0..4));
}

/// The inputs are those of the default choices. Only lengths that are made for an answer may be others.
#[test]
fn generated_inputs_do_not_depend_on_choices() {
    for kind in CallKind::ALL {
        let calls = |choices| Calls::new(kind, Source::Sound, 5).with(choices).take(500);
        let inputs = |call: &Call| (call.table.clone(), call.first.clone(), call.second.clone());
        for choices in all_choices() {
            for (one, other) in calls(Choices::default()).zip(calls(choices)) {
                assert_eq!(inputs(&one), inputs(&other));
                assert_eq!(one.choices, Choices::default());
                let taken = if kind.takes_choices() { choices } else { Choices::default() };
                assert_eq!(other.choices, taken);
            }
        }
    }
}

/// In so many of a hundred calls the answer is by the tie rule, and in so many by a tie below the root.
fn shares(kind: CallKind, source: Source) -> [usize; 2] {
    let at_root_alone = Reading::with(Fault::TieAtRootAlone);
    let mut counts = [0; 2];
    for call in Calls::new(kind, source, 1).with(to_first()).take(10_000) {
        let answer = Reading::FAULTLESS.answer(&call);
        counts[0] += usize::from(choices_show(&call, &answer));
        counts[1] += usize::from(at_root_alone.answer(&call) != answer);
    }
    println!("{kind}, {source}: by ties {} of 10,000, below the root {}", counts[0], counts[1]);
    counts.map(|count| count / 100)
}

#[test]
fn ties_decide_often_enough() {
    let sound = |kind| shares(kind, Source::Sound);
    let tied = |kind| shares(kind, Source::Tied);
    let [place, merge, fold] = [CallKind::Place, CallKind::Merge, CallKind::Fold];
    assert!(sound(merge)[0] >= 10 && sound(fold)[0] >= 10);
    for kind in [place, merge, fold] {
        let [all, below] = tied(kind);
        assert!(all >= 10 && below >= 10, "{kind}: {all} and {below} in 100");
    }
}

/// Whether all usages of a call are sound.
fn has_sound_usages(Call { kind, first, second, .. }: &Call) -> bool {
    if *kind == CallKind::Fold {
        let nodes = read_list(first, Faults::NONE).expect("a list");
        return nodes.iter().all(|node| is_sound(node, Faults::NONE));
    }
    let tops = [first, second].into_iter().filter_map(|bytes| read_top(bytes, Faults::NONE));
    tops.into_iter().all(|top| top.node().is_none_or(|node| is_sound(node, Faults::NONE)))
}

/// In so many of a hundred of these calls the answer is by the strict lookup.
fn share_of_lookup(calls: &[Call]) -> usize {
    let shows = |call: &&Call| choices_show(call, &Reading::FAULTLESS.answer(call));
    100 * calls.iter().filter(shows).count() / calls.len()
}

#[test]
fn the_lookup_decides_often_enough() {
    for kind in [CallKind::Supports, CallKind::Place, CallKind::Merge, CallKind::Fold] {
        let calls = Calls::new(kind, Source::Brink, 1).with(strict()).take(10_000);
        let (sound, unsound): (Vec<_>, Vec<_>) = calls.partition(has_sound_usages);
        let shares = [&sound, &unsound].map(|calls| share_of_lookup(calls));
        println!(
            "{kind}: by the lookup {shares:?} in 100 of {} sound calls and others",
            sound.len()
        );
        assert!(sound.len() >= 4_000 && shares.iter().all(|share| *share >= 20), "{shares:?}");
    }
}

/// What stands where an array ends is what the Rust says, too, with the default lookup.
#[test]
fn the_lenient_lookup_is_the_one_of_the_rust() {
    for kind in CallKind::ALL {
        let choices = Choices::default();
        let category = Category { kind, source: Source::Brink, choices };
        let compared = compare([&Reference, &Reading::FAULTLESS], category, 5_000, 6);
        assert_eq!(compared.map_err(|difference| difference.to_string()).err(), None);
    }
}

/// The strict lookup finds fewer components, and nothing is supported for want of one.
#[test]
fn what_is_supported_strictly_is_supported() {
    for source in [Source::Brink, Source::Sound, Source::Unsound] {
        for call in Calls::new(CallKind::Supports, source, 3).take(10_000) {
            let [lenient, strict] = [Choices::default(), strict()].map(|ch| answer_with(&call, ch));
            assert!(strict.yes <= lenient.yes && strict.number == lenient.number, "{call}");
        }
    }
}

/// Whether the answers under the two lookups are the same but for the report, and the lenient report
/// is, command by command, in the strict one.
fn differ_in_report_alone([lenient, strict]: &[Answer; 2]) -> bool {
    let Answer { report_length, report, .. } = strict.clone();
    let alike = Answer { report_length, report, ..lenient.clone() } == *strict;
    let refused_alike = strict.number == 0 || lenient == strict;
    let no_shorter = lenient.report_length <= strict.report_length;
    alike && refused_alike && no_shorter && stands_in(lenient.conflicts(), strict.conflicts())
}

/// Whether the commands of one report are, in order, among those of the other.
fn stands_in(shorter: &[u8], longer: &[u8]) -> bool {
    let mut longer = report_commands(longer).into_iter();
    report_commands(shorter).into_iter().all(|one| longer.any(|other| other == one))
}

/// What the strict lookup changes of generated calls under both tie rules: how many reports are others,
/// and how many of these do not fit, so that they are seen with more room; or the first call that it
/// changes more of.
fn what_strict_changes(
    side: &Reading,
    kind: CallKind,
    source: Source,
) -> Result<[usize; 2], Box<Call>> {
    let mut counts = [0; 2];
    for call in Calls::new(kind, source, 8).take(5_000) {
        for choices in [Choices::default(), to_first()] {
            let both = [choices, choices.with_lookup(Lookup::Strict)];
            let ask = |call: &Call| both.map(|choices| side.answer(&call.clone().with(choices)));
            let mut answers = ask(&call);
            if answers.each_ref().map(|answer| answer.number) == [0, 11] {
                counts[1] += 1;
                answers = ask(&with_room(&call));
            }
            if !differ_in_report_alone(&answers) {
                return Err(Box::new(call));
            }
            counts[0] += usize::from(answers[0].report != answers[1].report);
        }
    }
    Ok(counts)
}

/// The call with a report buffer that is longer than any report of small usages.
fn with_room(call: &Call) -> Call {
    let length = call.report.length + 4_096;
    Call { report: Buffer { length, ..call.report }, ..call.clone() }
}

const WRITING: [CallKind; 3] = [CallKind::Place, CallKind::Merge, CallKind::Fold];

/// What is proved of the definitions: of what is placed, merged or folded the strict lookup changes the
/// report alone, which it makes no shorter; so no refusal is another one, but for 11.
#[test]
fn the_strict_lookup_changes_the_report_alone() {
    for kind in WRITING {
        for source in [Source::Unsound, Source::Tied, Source::Brink] {
            let counts = what_strict_changes(&Reading::FAULTLESS, kind, source);
            let [reports, unfit] = counts.unwrap_or_else(|call| panic!("more than that:\n{call}"));
            println!("{kind}, {source}: {reports} reports are others, and {unfit} do not fit");
            let least = if source == Source::Brink { [2_000, 1] } else { [0, 0] };
            assert!(reports >= least[0] && unfit >= least[1], "{kind}, {source}");
        }
    }
}

/// A lookup that refuses too much changes more, and one that is exchanged for the other leaves out
/// what the other reports.
#[test]
fn a_wrong_lookup_changes_more_than_the_report() {
    let faults = [Fault::LookupNegated, Fault::LookupNoLengthAtZero, Fault::LookupEmptyNowhere];
    for side in faults.map(Reading::with) {
        for kind in WRITING {
            let sees = |source| what_strict_changes(&side, kind, source).is_err();
            let seen = [Source::Brink, Source::Unsound].into_iter().any(sees);
            assert!(seen, "{kind}: {:?} goes unseen", side.faults);
        }
    }
}

/// Receiver looks nothing up, and supports meets no tie.
#[test]
fn choices_that_do_not_matter_change_nothing() {
    for source in [Source::Brink, Source::Tied, Source::Sound, Source::Unsound] {
        for call in Calls::new(CallKind::Receiver, source, 5).take(3_000) {
            assert_eq!(answer_with(&call, strict()), answer_with(&call, Choices::default()));
            assert_eq!(answer_with(&call, both()), answer_with(&call, to_first()));
        }
        for call in Calls::new(CallKind::Supports, source, 5).take(3_000) {
            assert_eq!(answer_with(&call, to_first()), answer_with(&call, Choices::default()));
            assert_eq!(answer_with(&call, both()), answer_with(&call, strict()));
        }
    }
}

/// Some answers are others without either choice, some without one, some without none.
#[test]
fn choices_show_one_by_one() {
    for kind in [CallKind::Merge, CallKind::Fold] {
        let calls = Calls::new(kind, Source::Brink, 1).with(both()).take(20_000);
        let mut counts = [0; 4];
        for call in calls {
            let shown = choices_shown(&call, &Reading::FAULTLESS.answer(&call));
            counts[shown as usize] += 1;
        }
        println!("{kind}: none, ties, lookup, both: {counts:?}");
        assert!(counts.iter().all(|count| *count > 0), "{kind}: {counts:?}");
    }
}

/// Demand 3, with all choices.
#[test]
fn folds_of_sound_nodes_keep_their_promise() {
    for choices in all_choices() {
        for (source, least) in
            [(Source::Sound, 10_000), (Source::Tied, 10_000), (Source::Brink, 5_000)]
        {
            let calls = Calls::new(CallKind::Fold, source, 4).with(choices).take(10_000);
            let kept = calls.filter(|call| check_promise(call, &Reading::FAULTLESS.answer(call)));
            assert!(kept.count() >= least, "{source}");
        }
    }
}

/// With ties to the first the receiver is the one that the Rust finds for the exchanged streams.
#[test]
fn ties_to_the_first_mirror_the_rust() {
    for source in [Source::Sound, Source::Unsound, Source::Tied, Source::Damaged] {
        for call in Calls::new(CallKind::Receiver, source, 1).take(5_000) {
            let (first, second) = (call.second.clone(), call.first.clone());
            let exchanged = Reference.answer(&Call { first, second, ..call.clone() }).number;
            for choices in [to_first(), both()] {
                let number = answer_with(&call, choices).number;
                assert_eq!(number, [0, 2, 1][exchanged as usize], "{call}");
            }
        }
    }
}

#[test]
#[should_panic(expected = "the reference has no choices")]
fn the_reference_is_not_asked_with_choices() {
    Reference.answer(&answered(CallKind::Merge, to_first()));
}

/// Nor where the call is refused before its rules are asked.
#[test]
#[should_panic(expected = "the reference has no choices")]
fn nor_is_it_where_a_call_is_refused() {
    Reference.answer(&Call { work: 0, ..answered(CallKind::Merge, to_first()) });
}

#[test]
fn the_rust_judges_the_default_choices_alone() {
    assert_eq!(judge(Choices::default()).name(), "reference");
    for choices in [to_first(), strict(), both()] {
        assert_eq!(judge(choices).name(), "reading");
    }
}

/// The choices stand behind the call's name, and are kept when a difference is shrunk.
#[test]
fn choices_are_shown() {
    let shown = |choices| answered(CallKind::Merge, choices).to_string();
    assert!(shown(Choices::default()).starts_with("merge\n"));
    assert!(shown(to_first()).starts_with("merge, ties to the first\n"));
    assert!(shown(strict()).starts_with("merge, strict lookup\n"));
    assert!(shown(both()).starts_with("merge, ties to the first, strict lookup\n"));
    let supports = answered(CallKind::Supports, to_first()).to_string();
    let (head, _) = supports.split_once('\n').expect("lines");
    assert!(head.starts_with("supports of type ") && head.ends_with(", ties to the first"));

    let deaf = Reading::with(Fault::TieNeverAsked);
    let category = Category { kind: CallKind::Fold, source: Source::Tied, choices: to_first() };
    let difference = compare([&Reading::FAULTLESS, &deaf], category, 1_000, 1);
    let shown = difference.expect_err("a tie").to_string();
    assert!(shown.starts_with("fold, ties to the first\n"), "{shown}");
    assert!(shown.contains("first   List(U0 | O0[])"), "{shown}");
}

fn rows_notice(rows: &[Row], faults: &[Fault]) {
    for &fault in faults {
        let side = Reading::with(fault);
        let broken = rows.iter().filter(|row| row.broken_by(&side).is_some()).count();
        assert!(broken > 0, "no row notices: {}", fault.words());
    }
}

/// Each wrong way to ask the tie rule breaks a worked row: asked too seldom, asked where there is no
/// tie, the sides exchanged.
#[test]
fn rows_about_ties_notice_its_faults() {
    let faults = [
        Fault::TieNeverAsked,
        Fault::TieAtRootAlone,
        Fault::TieTurnsStrictness,
        Fault::TieAnyStrictness,
        Fault::TieNotByReceiver,
        Fault::TieNotByPlace,
        Fault::TieNotByMerge,
        Fault::TieNotByFold,
        Fault::Rule5ElementSecond,
        Fault::Rule6EqualStartSwapped,
        Fault::FoldNextFirst,
    ];
    rows_notice(&ties(), &faults);
}

/// And each wrong way to ask the lookup: asked too seldom, asked where it must not be, one choice
/// lost for the other.
#[test]
fn rows_about_the_lookup_notice_its_faults() {
    let faults = [
        Fault::TieNotIfStrict,
        Fault::ChoicesExchanged,
        Fault::LookupNeverAsked,
        Fault::LookupNegated,
        Fault::LookupNotBySupports,
        Fault::LookupNotByPlace,
        Fault::LookupNotByMerge,
        Fault::LookupNotByFold,
        Fault::LookupNotByLeaves,
        Fault::LookupNotByComponents,
        Fault::LookupNotByEntries,
        Fault::LookupNotIfFirst,
        Fault::LookupFixedLenient,
        Fault::LookupDynamicLenient,
        Fault::LookupLastElement,
        Fault::LookupNoLength,
        Fault::LookupNoLengthAtZero,
        Fault::LookupEmptyNowhere,
        Fault::LookupFieldEnds,
        Fault::LookupArrayEnds,
    ];
    rows_notice(&lookup(), &faults);
}

/// The slip that document 01 names, on a tie the first receives, is what the choice is.
#[test]
fn the_choice_is_the_slip_made_on_purpose() {
    let slipping = Reading::with(Fault::TieToFirst);
    for kind in CallKind::ALL {
        for call in Calls::new(kind, Source::Tied, 2).take(2_000) {
            let answer = slipping.answer(&call);
            assert_eq!(answer, Reading::FAULTLESS.answer(&call.with(to_first())));
        }
    }
}

/// What a file of one record is with these four bytes of choices.
fn with_choices(call: Call, choices: u32) -> Option<Vec<Recorded>> {
    let mut bytes = to_bytes(&[Recorded::of(&Reading::FAULTLESS, call)]);
    // behind the count, the length, the call's byte, the work area, the type and the offset
    bytes[21..25].copy_from_slice(&choices.to_le_bytes());
    from_bytes(&bytes)
}

#[test]
fn recorded_choices_are_known_ones() {
    let past = all_choices().len() as u32;
    let merge = || answered(CallKind::Merge, Choices::default());
    for choices in all_choices() {
        let list = with_choices(merge(), choices.number()).expect("known choices");
        assert_eq!(list[0].call, merge().with(choices));
    }
    for number in [past, past | 1, u32::MAX] {
        assert!(with_choices(merge(), number).is_none(), "{number}");
    }
    // soundness takes none
    assert!(with_choices(answered(CallKind::Sound, Choices::default()), 1).is_none());
}

/// What the recorded answers lack if only those are kept that are asked for.
fn lacks(kept: impl Fn(&Call, &Answer) -> bool) -> Option<String> {
    let path = concat!(env!("CARGO_MANIFEST_DIR"), "/../crates/replay/data/answers.bin");
    let mut list = from_bytes(&read(path).expect("the recorded answers")).expect("a list");
    list.retain(|one| kept(&one.call, &one.answer));
    check_coverage(&list).err()
}

#[test]
fn recorded_answers_show_all_that_is_asked_of_them() {
    assert_eq!(lacks(|_, _| true), None);
    for choices in all_choices().split_off(1) {
        for kind in [CallKind::Supports, CallKind::Place, CallKind::Merge, CallKind::Fold] {
            let is_that = |call: &Call| (call.kind, call.choices) == (kind, choices);
            let words = format!("choices {}: no recorded {kind} ends with 7", choices.number());
            assert_eq!(lacks(|call, answer| !is_that(call) || answer.number != 7), Some(words));
        }
    }
}

/// The heads 30 and 31 stand before one of these.
#[test]
fn recorded_answers_show_each_conflict_of_each_call() {
    for kind in WRITING {
        for command in 0x32..=0x36 {
            let reports = |answer: &Answer| {
                let met = report_commands(answer.conflicts());
                met.into_iter().any(|(met, _)| met == command)
            };
            let is_that = |call: &Call| call.kind == kind && call.choices != Choices::default();
            let words = format!("with choices: no recorded {kind} reports {command:x}");
            assert_eq!(lacks(|call, answer| !is_that(call) || !reports(answer)), Some(words));
        }
    }
}

/// Every third generated call that becomes a theorem is made with choices, if it takes any.
#[test]
fn some_theorems_are_about_choices() {
    let list = small_calls(1_500, 3);
    for choices in all_choices().split_off(1) {
        let with = list.iter().filter(|one| one.call.choices == choices);
        let showing = with.clone().filter(|one| choices_show(&one.call, &one.answer));
        let (with, showing, number) = (with.count(), showing.count(), choices.number());
        println!("choices {number}: {with}, and {showing} of them are answered by these");
        assert!(with >= 100 && showing >= 5, "choices {number}: {with}, showing {showing}");
    }
}
