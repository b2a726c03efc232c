//! The two counts held against the reading's answers, against each other and against formulas.

use super::change::change;
use super::nodes::{Containing, First, Matter, NodeKind};
use super::plain::{Counted, plain};
use super::port::{Asked, ours};
use super::shapes::{
    Question, arrays, crowded, empty_maps, empty_records, layers, merged, overlapping, strides,
    wrappers,
};
use super::worst::{Among, STAGES, elements_apart};
use crate::generate::{Calls, Rng, Source};
use crate::reading::Reading;
use crate::reading::calls::{Given, Rules};
use crate::reading::faults::Faults;
use crate::reading::sound::is_sound;
use crate::reading::streams::read_memory;
use crate::reading::tables::{read_table, write_table};
use crate::side::{Call, CallKind, Choices};
use std::iter::successors;

const MOST: u64 = 50_000_000;

fn generated(source: Source, count: usize) -> Vec<Question> {
    let calls = Calls::new(CallKind::Supports, source, 11).take(count);
    let question = |call: Call| {
        let table = read_table(&call.table, Faults::NONE)?;
        let usage = read_memory(&call.first, Faults::NONE)?;
        Some(Question { table, ty: call.ty, at: call.offset, usage })
    };
    calls.filter_map(question).collect()
}

/// The layout test's answer as the reading has it.
fn as_read(q: &Question) -> bool {
    let given = Given { table: &q.table, choices: Choices::default() };
    Reading::FAULTLESS.supports(given, q.ty, q.at, &q.usage)
}

fn plainly(q: &Question) -> Counted {
    plain(&q.table, q.ty, q.at, &q.usage, usize::MAX).expect("all distinct questions are counted")
}

fn ported(q: &Question) -> Asked {
    ours(&q.table, q.ty, q.at, &q.usage, MOST).expect("the port answers")
}

#[test]
fn both_answer_as_the_reading_does() {
    for source in [Source::Sound, Source::Unsound] {
        let questions = generated(source, 20_000);
        assert!(questions.len() > 19_000);
        for q in questions {
            let answer = as_read(&q);
            let (counted, asked) = (plainly(&q), ported(&q));
            assert_eq!([counted.yes, asked.yes], [answer; 2], "{q:?}");
            assert!(asked.questions as f64 <= counted.calls, "{q:?}");
        }
    }
}

#[test]
fn they_do_so_on_what_the_search_makes_too() {
    let mut rng = Rng::new(17);
    for among in Among::ALL {
        let mut last = if among == Among::Unsound { empty_records(3, 3) } else { wrappers(2, 2) };
        for _ in 0..20_000 {
            let mut next = last.clone();
            change(&mut rng, &mut next);
            if STAGES[1].allow(&next) && among.has(&next) {
                last = next;
                let answer = as_read(&last);
                assert_eq!([plainly(&last).yes, ported(&last).yes], [answer; 2], "{last:?}");
            }
        }
    }
}

#[test]
fn the_computed_count_is_what_really_counting_gives() {
    let shapes = [wrappers(4, 5), merged(3, 6), arrays(7), layers(2)];
    let generated = [Source::Sound, Source::Unsound].map(|source| generated(source, 2_000));
    for q in shapes.into_iter().chain(generated.into_iter().flatten()) {
        let matter = Matter::new(&q.table, &q.usage);
        let mut calls = 0;
        really(&matter, q.ty, q.at, 0, &mut calls);
        assert_eq!(plainly(&q).calls, f64::from(calls), "{q:?}");
    }
}

#[test]
fn the_formulas_hold() {
    assert_eq!(plainly(&wrappers(10, 10)).calls, 705_431.0);
    assert_eq!(plainly(&wrappers(14, 14)).calls, 155_117_519.0);
    assert_eq!(plainly(&wrappers(20, 20)).calls, 538_257_874_439.0);
    assert_eq!(plainly(&arrays(24)).calls, 33_554_431.0);
    assert_eq!(plainly(&merged(13, 13)).calls, 60_174_899.0);
    assert_eq!(plainly(&layers(4)).calls, 17_043_521.0);
}

#[test]
fn all_are_accepted_and_sound_but_for_those_of_size_0() {
    for (q, sound) in [
        (wrappers(250, 250), true),
        (merged(100, 100), true),
        (arrays(200), true),
        (layers(15), false),
        (crowded(100, 100), true),
        (overlapping(40, 40), true),
        (strides(40, 40), true),
        (empty_maps(4, 64, 1), false),
        (empty_records(80, 9), false),
    ] {
        assert_eq!(read_table(&write_table(&q.table), Faults::NONE), Some(q.table.clone()));
        assert_eq!(is_sound(&q.usage, Faults::NONE), sound);
    }
}

#[test]
fn what_the_port_remembers_is_enough_for_the_shapes() {
    assert_eq!(ported(&wrappers(14, 14)).questions, 421);
    assert_eq!(ported(&merged(13, 13)).questions, 367);
    assert_eq!(ported(&arrays(24)).questions, 601);
    assert_eq!(ported(&layers(4)).questions, 12_353);
}

#[test]
fn each_distinct_question_is_worked_out_about_once_where_elements_overlap() {
    for k in [10, 40, 100] {
        let q = overlapping(k, k);
        assert!(ported(&q).questions < 3 * plainly(&q).distinct as u64);
    }
}

#[test]
fn some_inputs_outgrow_any_list_and_some_this_one() {
    let q = strides(16, 16);
    assert_eq!(ported(&q).questions, (1 << 17) - 1);
    assert!(plainly(&q).distinct > 131_000);
    let q = empty_records(40, 40);
    assert!(ported(&q).questions > 100 * plainly(&q).distinct as u64);
}

#[test]
fn elements_that_overlap_are_told_from_others() {
    assert!(
        [wrappers(3, 3), arrays(3), layers(1), crowded(3, 3)]
            .iter()
            .all(|q| elements_apart(&q.table))
    );
    assert!([overlapping(1, 1), strides(2, 2)].iter().all(|q| !elements_apart(&q.table)));
}

/// Asks as the reference does, call by call.
fn really(matter: &Matter<'_>, ty: u32, at: u32, q: usize, calls: &mut u32) -> bool {
    *calls += 1;
    match matter.first_tests(ty, at, q) {
        First::Yes => return true,
        First::No => return false,
        First::Open => {}
    }
    if any_really(matter, ty, at, q, calls) {
        return true;
    }
    match matter.nodes[q].kind {
        NodeKind::Unused | NodeKind::Leaf(_) => false,
        NodeKind::Array(_) => {
            let element = matter.element_asked(ty, at, q);
            element.is_some_and(|ty| really(matter, ty, 0, q + 1, calls))
        }
        NodeKind::Map => {
            let first = (!matter.inside_of(q).is_empty()).then_some(q + 1);
            let end = matter.inside_of(q).end;
            let next = |&e: &usize| Some(e + matter.nodes[e].nodes).filter(|&e| e < end);
            successors(first, next).all(|e| match at.checked_add(matter.nodes[e].offset) {
                None => false,
                Some(0) => really(matter, ty, 0, e, calls),
                Some(sum) => any_really(matter, ty, sum, e, calls),
            })
        }
    }
}

fn any_really(matter: &Matter<'_>, ty: u32, at: u32, q: usize, calls: &mut u32) -> bool {
    let next = |last: &Containing| matter.containing(ty, last.next, at, q);
    let mut components = successors(matter.containing(ty, 0, at, q), next);
    components.any(|found| really(matter, found.ty, found.rest, q, calls))
}
