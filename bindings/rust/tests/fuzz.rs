//! Random bytes, texts and values for every public function: errors, and never a panic.
//!
//! For a second; `USAGE_MERGER_FUZZ_SECONDS=60 cargo test --test fuzz` for a minute. Each part has
//! a fixed seed, and a share of the time.

mod random;

use random::Rng;
use std::env;
use std::time::{Duration, Instant};
use usage_merger::calls::{self, Answer, Buffers, Setting, WORK_AREA};
use usage_merger::{
    ByteFault, Choices, Conflict, ConflictKind, Error, Lookup, MergeResult, NotationError,
    QPtrMemUsage, QPtrMemUsageKind, QPtrUsage, Receiver, Refusal, Table, Ties, Type, TypeLayout,
    UsageMerger, ValueError, list_from_bytes, list_to_bytes,
};

/// Runs a part again and again until its share of the time is over.
fn fuzz(share: f64, seed: u64, mut part: impl FnMut(&mut Rng)) {
    let seconds = match env::var("USAGE_MERGER_FUZZ_SECONDS") {
        Ok(seconds) => seconds.parse().expect("USAGE_MERGER_FUZZ_SECONDS is a number"),
        Err(_) => 1.0,
    };
    let end = Instant::now() + Duration::from_secs_f64(seconds * share);
    let mut rng = Rng::new(seed);
    let mut times = 0;
    while times < 100 || Instant::now() < end {
        part(&mut rng);
        times += 1;
    }
    println!("{times} times");
}

/// What is read is what the value is written as, and there is one way to write it.
fn readings(bytes: &[u8]) {
    if let Ok(usage) = QPtrUsage::from_bytes(bytes) {
        assert_eq!(usage.to_bytes().as_deref(), Ok(bytes));
        let _ = (usage.nodes(), usage.mem().is_some(), usage.to_string(), format!("{usage:?}"));
    }
    if let Ok(usage) = QPtrMemUsage::from_bytes(bytes) {
        assert_eq!(usage.to_bytes().as_deref(), Ok(bytes));
    }
    if let Ok(list) = list_from_bytes(bytes) {
        assert_eq!(list_to_bytes(&list).as_deref(), Ok(bytes));
    }
    if let Ok(table) = Table::from_bytes(bytes) {
        assert_eq!(table.to_bytes().as_deref(), Ok(bytes));
    }
    if let Err(error) = Conflict::list_from_bytes(bytes) {
        assert!(error.position <= bytes.len());
        let _ = error.to_string();
    }
}

fn bytes_of_any_kind(rng: &mut Rng) -> Vec<u8> {
    let bytes = match rng.below(6) {
        0 => rng.bytes(40),
        1 => rng.top(3).to_bytes().unwrap(),
        2 => list_to_bytes(&[rng.usage(2), rng.usage(1)]).unwrap(),
        3 => rng.table().to_bytes().unwrap(),
        4 => report(rng),
        _ => rng.usage(3).to_bytes().unwrap(),
    };
    rng.damaged(bytes)
}

/// Bytes that are nearly a report.
fn report(rng: &mut Rng) -> Vec<u8> {
    let mut bytes = Vec::new();
    for _ in 0..rng.below(12) {
        let (command, operands) =
            rng.pick(&[(0x30, 0), (0x31, 4), (0x32, 0), (0x35, 4), (0x36, 8), (0x38, 2)]);
        bytes.push(command);
        (0..operands).for_each(|_| bytes.push(rng.below(3) as u8));
    }
    bytes
}

#[test]
fn bytes_are_read_or_refused() {
    fuzz(0.2, 1, |rng| readings(&bytes_of_any_kind(rng)));
}

/// The bytes that the library takes for a stream or a table are those that are read here, but for
/// streams that are too deep here, and the rules among a table's records.
#[test]
fn the_library_reads_the_same() {
    let bench = Table::bench().to_bytes().unwrap();
    let mut work = vec![0; WORK_AREA];
    let unused = QPtrMemUsage::UNUSED.to_bytes().unwrap();
    fuzz(0.2, 2, |rng| {
        let (bytes, choices) = (bytes_of_any_kind(rng), rng.choices());
        let answer = calls::sound(Setting { table: &bench, work: &mut work, choices }, &bytes);
        let bad = Refusal::of(answer.number) == Some(Refusal::BadFirst);
        assert_eq!(bad, QPtrMemUsage::from_bytes(&bytes).is_err(), "{bytes:02x?}");
        let answer = calls::sound(Setting { table: &bytes, work: &mut work, choices }, &unused);
        if Table::from_bytes(&bytes).is_err() {
            assert_eq!(Refusal::of(answer.number), Some(Refusal::BadTable), "{bytes:02x?}");
        }
        let merger = UsageMerger::from_table_bytes(bytes);
        assert_eq!(merger.err().and_then(Error::refusal), Refusal::of(answer.number));
    });
}

#[test]
fn calls_on_bytes_keep_to_their_buffers() {
    fuzz(0.2, 3, |rng| {
        let table = match rng.below(4) {
            0 => bytes_of_any_kind(rng),
            _ => Table::bench().to_bytes().unwrap(),
        };
        let length = rng.pick(&[WORK_AREA, WORK_AREA, WORK_AREA, WORK_AREA + 1, WORK_AREA - 1, 0]);
        let mut work = vec![0xee; length];
        let (first, second) = (bytes_of_any_kind(rng), bytes_of_any_kind(rng));
        let (ty, offset, choices) = (rng.number(), rng.number(), rng.choices());
        let (mut output, mut report) = (vec![0xaa; rng.below(200)], vec![0xaa; rng.below(60)]);
        let mut ask = |call: usize| {
            let setting = Setting { table: &table, work: &mut work, choices };
            let to = Buffers { output: &mut output, report: &mut report };
            match call {
                0 => calls::merge(setting, &first, &second, to),
                1 => calls::place(setting, &first, offset, &second, to),
                2 => calls::fold(setting, &first, to),
                3 => calls::supports(setting, ty, offset, &first),
                _ => calls::sound(setting, &first),
            }
        };
        let call = rng.below(5);
        let answer = ask(call);
        assert!(answer.number == 0 || Refusal::of(answer.number).is_some());
        assert!(calls::receiver(choices, &first, &second) <= 2);
        if call < 3 {
            kept(&answer, &output, &report);
        }
    });
}

/// The rest of the output is as before, and the rest of the report is zeros.
fn kept(answer: &Answer, output: &[u8], report: &[u8]) {
    let (usage, conflicts) = (answer.usage_length as usize, answer.report_length as usize);
    assert!(output[usage..].iter().all(|byte| *byte == 0xaa));
    assert!(report[conflicts..].iter().all(|byte| *byte == 0));
    assert!(answer.number == 0 || (usage, conflicts, answer.pairings) == (0, 0, 0));
}

fn texts(text: &str) {
    let told = |error: NotationError| {
        assert!(error.position() <= text.len());
        let shown = error.pointing_into(text);
        assert!(shown.ends_with('^') && shown.lines().count() == 2, "{shown}");
        let _ = (error.to_string(), error.expected().len());
    };
    match text.parse::<QPtrUsage>() {
        Ok(usage) => assert_eq!(usage.to_string().parse(), Ok(usage)),
        Err(error) => told(error),
    }
    match text.parse::<QPtrMemUsage>() {
        Ok(usage) => assert_eq!(usage.to_string().parse(), Ok(usage)),
        Err(error) => told(error),
    }
    match text.parse::<Table>() {
        Ok(table) => assert_eq!(table.to_string().parse(), Ok(table)),
        Err(error) => told(error),
    }
}

#[test]
fn texts_are_read_or_refused() {
    fuzz(0.1, 4, |rng| {
        let text = match rng.below(3) {
            0 => rng.text(20),
            1 => rng.usage(3).to_string(),
            _ => rng.table().to_string(),
        };
        texts(&text);
        let mut letters: Vec<char> = text.chars().collect();
        if !letters.is_empty() {
            let at = rng.below(letters.len());
            letters[at] = rng.pick(&['U', '*', '[', ']', ':', ',', '0', '9', ' ', '\u{e9}', '\0']);
        }
        texts(&letters.iter().collect::<String>());
    });
}

/// Refusals that values can meet, and no others.
fn may_be(error: Error) {
    let refusal = match error {
        Error::Refused(refusal) => refusal,
        Error::Value(ValueError::Entries(_) | ValueError::Nodes(_)) => return,
        error => panic!("{error}"),
    };
    assert!(!refusal.word().is_empty() && !refusal.when().is_empty());
    let never = [
        Refusal::ShortWorkArea,
        Refusal::BadTable,
        Refusal::BadSecond,
        Refusal::OutputShort,
        Refusal::ReportShort,
    ];
    assert!(!never.contains(&refusal), "{refusal}");
}

/// What holds of every answer.
fn bounded(answer: &MergeResult<QPtrMemUsage>, nodes: usize) {
    assert!(answer.merged.nodes() <= nodes);
    assert!(answer.pairings <= (nodes * nodes.saturating_sub(1) / 2) as u64);
    let words = answer.conflicts.iter().map(Conflict::to_string).collect::<String>();
    assert_eq!(words.is_empty(), answer.clone().into_result().is_ok());
}

fn any_usage(rng: &mut Rng) -> QPtrMemUsage {
    if rng.one_in(2_000) {
        let entries = (0..65_536).map(|offset| (offset, QPtrMemUsage::UNUSED)).collect();
        return QPtrMemUsage { max_size: None, kind: QPtrMemUsageKind::OffsetBase(entries) };
    }
    match rng.below(12) {
        0 => {
            let levels = rng.pick(&[1, 2, 100, 511, 512, 513, 700]);
            rng.deep(levels)
        }
        1..4 => {
            let size = rng.pick(&[4, 8, 12, 16]);
            rng.sound(size, 2)
        }
        _ => rng.usage(3),
    }
}

#[test]
fn values_are_answered_or_refused() {
    let mut merger = UsageMerger::new(&Table::bench()).unwrap();
    fuzz(0.3, 5, |rng| {
        let mut table = rng.table();
        if let Ok(other) = UsageMerger::new(&table)
            && rng.one_in(3)
        {
            merger = other.with_choices(rng.choices());
        }
        let (handle, any) = (table.push(TypeLayout::Handle), Type(rng.number()));
        assert_eq!(table.get(handle), Some(&TypeLayout::Handle));
        assert_eq!(table.get(any).is_some(), any <= handle);
        let usages: Vec<QPtrMemUsage> = (0..rng.below(5)).map(|_| any_usage(rng)).collect();
        let (a, b) = (any_usage(rng), any_usage(rng));
        let both = a.nodes() + b.nodes();
        merger.merge_mem(&a, &b).map_or_else(may_be, |answer| bounded(&answer, both));
        let at = rng.number();
        merger.merge_mem_at(&a, at, &b).map_or_else(may_be, |answer| bounded(&answer, both));
        let all = usages.iter().map(QPtrMemUsage::nodes).sum();
        merger.fold(&usages).map_or_else(may_be, |answer| bounded(&answer, all));
        let ty = Type(rng.number());
        let _ = merger.supports_usage_at_offset(ty, at, &a).map_err(may_be);
        let _ = merger.is_sound(&a).map_err(may_be);
        match merger.receiver(&a, &b) {
            Ok(Receiver::First | Receiver::Second) => assert!(both <= 512),
            Err(Error::Refused(refusal)) => assert_eq!(refusal, Refusal::TooManyNodes),
            Err(error) => may_be(error),
        }
        let (top_a, top_b) = (rng.top(2), rng.top(2));
        let _ = merger.merge(&top_a, &top_b).map_err(may_be);
        values_round(&a);
    });
}

/// A value is what its bytes and its notation say, if it is not too deep for them.
fn values_round(usage: &QPtrMemUsage) {
    let bytes = match usage.to_bytes() {
        Ok(bytes) => bytes,
        Err(error) => return assert_eq!(error, ValueError::Entries(65_536)),
    };
    match QPtrMemUsage::from_bytes(&bytes) {
        Ok(same) => {
            assert_eq!(&same, usage);
            assert_eq!(usage.to_string().parse(), Ok(same));
        }
        Err(error) => {
            assert_eq!(error.fault, ByteFault::TooDeep);
            assert!(usage.nodes() > 512);
            assert!(usage.to_string().parse::<QPtrMemUsage>().is_err());
        }
    }
}

/// Where ties go to the first, the usage receives that does where they go to the second and the two
/// are exchanged.
#[test]
fn the_tie_rules_are_each_other_exchanged() {
    let bench = UsageMerger::new(&Table::bench()).unwrap();
    let ties = |ties| bench.clone().with_choices(Choices::default().with_ties(ties));
    let (to_first, to_second) = (ties(Ties::First), ties(Ties::Second));
    fuzz(0.1, 7, |rng| {
        let (a, b) = (any_usage(rng), any_usage(rng));
        let exchanged = to_second.receiver(&b, &a).map(|receiver| match receiver {
            Receiver::First => Receiver::Second,
            Receiver::Second => Receiver::First,
        });
        assert_eq!(to_first.receiver(&a, &b), exchanged);
    });
}

/// Arrays with these lengths, in a struct and in each other, and one of a dynamic size. The two mergers
/// differ in the lookup.
fn lookups([a, b, c]: [u32; 3], ties: Ties) -> [UsageMerger; 2] {
    let table = format!(
        "scalar 4; elements 16 (4, 0, {a}); fields 24 {{0:1 16:0}}; elements 32 (16, 1, {b}); \
         scalar 1+1; elements 8+4 (4, 4, {c})"
    );
    let merger = UsageMerger::new(&table.parse().unwrap()).unwrap();
    let choices = Choices::default().with_ties(ties);
    [Lookup::Lenient, Lookup::Strict]
        .map(|lookup| merger.clone().with_choices(choices.with_lookup(lookup)))
}

/// Types of these tables, their sizes, and where an array ends in them.
const ENDS: [(u32, Option<u32>, u32); 4] =
    [(1, Some(16), 16), (2, Some(24), 16), (3, Some(32), 32), (5, None, 8)];

/// A type, a leaf of it, an offset, and a usage: often one that comes to stand where an array ends, and
/// is empty or dynamic.
fn near_an_end(rng: &mut Rng) -> (Type, QPtrMemUsage, u32, QPtrMemUsage) {
    let (ty, max_size, end) = rng.pick(&ENDS);
    let leaf = |max_size, ty| QPtrMemUsage { max_size, kind: QPtrMemUsageKind::DirectAccess(ty) };
    let whole = leaf(max_size, Type(ty));
    let small = leaf(rng.pick(&[Some(0), None, Some(4)]), Type(rng.pick(&[0, 1, 4])));
    let kind = QPtrMemUsageKind::OffsetBase([(end, small.clone())].into());
    let (at, usage) = match rng.below(5) {
        0 => (rng.number(), any_usage(rng)),
        1 | 2 => (end, small),
        _ => (0, QPtrMemUsage { max_size, kind }),
    };
    (Type(ty), if rng.one_in(5) { any_usage(rng) } else { whole }, at, usage)
}

/// Whether the lookup decides about support, a placing, a merge and a fold. By the strict one types
/// support no more than by the other, so there may be more conflicts of types; all else is the same.
fn decides(rng: &mut Rng, [lenient, strict]: &mut [UsageMerger; 2]) -> [bool; 4] {
    let (ty, a, at, b) = near_an_end(rng);
    let others = [near_an_end(rng).1, near_an_end(rng).3];
    let asked = |merger: &mut UsageMerger| merger.supports_usage_at_offset(ty, at, &b);
    let supports = (asked(strict), asked(lenient));
    let fewer = supports == (Ok(false), Ok(true));
    assert!(supports.0 == supports.1 || fewer, "{ty:?} at {at}: {b}");
    let mut ask = |call: &dyn Fn(&mut UsageMerger) -> Result<MergeResult<QPtrMemUsage>, Error>| {
        more_conflicts(call(strict), call(lenient))
    };
    let placed = ask(&|merger| merger.merge_mem_at(&a, at, &b));
    let merged = ask(&|merger| merger.merge_mem(&a, &b));
    let folded = ask(&|merger| merger.fold([&b, &a].into_iter().chain(&others)));
    [fewer, placed, merged, folded]
}

/// Whether the strict lookup finds more: those of the lenient one are among its conflicts, in their
/// order, and the others are of types.
fn more_conflicts(
    strict: Result<MergeResult<QPtrMemUsage>, Error>,
    lenient: Result<MergeResult<QPtrMemUsage>, Error>,
) -> bool {
    let (strict, lenient) = match (strict, lenient) {
        (Ok(strict), Ok(lenient)) => (strict, lenient),
        (strict, lenient) => {
            assert_eq!(strict, lenient);
            return false;
        }
    };
    assert_eq!((&strict.merged, strict.pairings), (&lenient.merged, lenient.pairings));
    let mut left = lenient.conflicts.iter().peekable();
    for conflict in &strict.conflicts {
        let place = |conflict: &Conflict| (conflict.node, conflict.offsets.last().copied());
        let same =
            |other: &&Conflict| (place(other), other.kind) == (place(conflict), conflict.kind);
        assert!(left.next_if(same).is_some() || conflict.kind == ConflictKind::Type);
    }
    assert_eq!(left.next(), None);
    strict.conflicts.len() > lenient.conflicts.len()
}

#[test]
fn the_strict_lookup_only_takes_support_away() {
    let mut with = [Ties::First, Ties::Second].map(|ties| lookups([4, 2, 2], ties));
    let mut without = lookups([0, 0, 0], Ties::Second);
    let mut decided = [0; 4];
    fuzz(0.1, 8, |rng| {
        let which = rng.below(2);
        let decides_here = decides(rng, &mut with[which]);
        decided = [0, 1, 2, 3].map(|call| decided[call] + u32::from(decides_here[call]));
        assert_eq!(decides(rng, &mut without), [false; 4], "no array has a length");
    });
    println!("decided: {decided:?} of questions, placings, merges and folds");
    assert!(decided.iter().all(|times| *times > 0));
}

/// The promise: sound usages are never refused with 8 or 9, what comes of them is sound, and as
/// large as the largest, whatever is chosen.
#[test]
fn sound_usages_keep_their_promise() {
    let table: Table =
        "scalar 4; scalar 4; fields 8 {0:0 4:1}; elements 8 (4, 1, 2); failed; handle"
            .parse()
            .unwrap();
    let merger = UsageMerger::new(&table).unwrap();
    fuzz(0.2, 6, |rng| {
        let mut merger = merger.clone().with_choices(rng.choices());
        let usages: Vec<QPtrMemUsage> = (0..=rng.below(4))
            .map(|_| {
                let size = rng.pick(&[0, 4, 8, 8, 16, 24]);
                rng.sound(size, 3)
            })
            .filter(|usage| merger.is_sound(usage) == Ok(true))
            .collect();
        if usages.is_empty() {
            return;
        }
        let answer = merger.fold(&usages).unwrap();
        bounded(&answer, usages.iter().map(QPtrMemUsage::nodes).sum());
        assert_eq!(merger.is_sound(&answer.merged), Ok(true));
        let largest = usages.iter().map(|usage| usage.max_size).max();
        assert_eq!(Some(answer.merged.max_size), largest);
    });
}
