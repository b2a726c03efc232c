//! The recorded answers, put to the calls on bytes and to `UsageMerger`: those of the Rust, and where
//! something is chosen, those of an independent reading.

mod records;

use records::{Record, records};
use usage_merger::calls::{self, Buffers, Setting};
use usage_merger::{
    ByteFault, BytesError, Choices, Conflict, Error, MergeResult, QPtrMemUsage, QPtrUsage,
    Receiver, Refusal, Table, Type, UsageMerger, list_from_bytes,
};

#[test]
fn calls_on_bytes_give_the_recorded_answers() {
    let records = records();
    let with =
        |number| records.iter().filter(|record| record.choices == Choices::of(number)).count();
    let counts = [0, 1, 2, 3].map(with);
    println!("{} calls, by their choices {counts:?}", records.len());
    assert!(counts[0] > 2_000 && counts[1..].iter().all(|count| *count > 40));
    for (index, record) in records.iter().enumerate() {
        on_bytes(record, index);
    }
}

fn on_bytes(record: &Record, index: usize) {
    let Record { call, work, ty, offset, table, first, second, .. } = record;
    let choices = record.choices;
    if *call == 0 {
        let received = u64::from(calls::receiver(choices, first, second));
        return assert_eq!(received, record.answer.number, "record {index}");
    }
    let (mut work, mut output, mut report) =
        (vec![0xee; *work], record.output.clone(), record.report.clone());
    let setting = Setting { table, work: &mut work, choices };
    let to = Buffers { output: &mut output, report: &mut report };
    let answer = match call {
        1 => calls::supports(setting, *ty, *offset, first),
        2 => calls::place(setting, first, *offset, second, to),
        3 => calls::merge(setting, first, second, to),
        4 => calls::fold(setting, first, to),
        _ => calls::sound(setting, first),
    };
    assert_eq!(answer, record.answer, "record {index}");
    let mut expected = record.output.clone();
    expected[..record.usage.len()].copy_from_slice(&record.usage);
    assert_eq!(output, expected, "record {index}");
    let mut expected = vec![0; record.report.len()];
    expected[..record.conflicts.len()].copy_from_slice(&record.conflicts);
    assert_eq!(report, expected, "record {index}");
}

/// What a record says of values: nothing where it is about buffers or broken bytes.
enum Expected {
    Written { usage: QPtrUsage, conflicts: Vec<Conflict>, pairings: u64 },
    Says(bool),
    Received(Option<Receiver>),
    Refused(Refusal),
}

fn expected(record: &Record) -> Option<Expected> {
    let answer = &record.answer;
    if record.call == 0 {
        let receivers = [None, Some(Receiver::First), Some(Receiver::Second)];
        return Some(Expected::Received(receivers[answer.number as usize]));
    }
    match Refusal::of(answer.number) {
        Some(Refusal::ShortWorkArea | Refusal::OutputShort | Refusal::ReportShort) => None,
        Some(refusal) => Some(Expected::Refused(refusal)),
        None if matches!(record.call, 1 | 5) => Some(Expected::Says(answer.yes == 1)),
        None => Some(Expected::Written {
            usage: QPtrUsage::from_bytes(&record.usage).unwrap(),
            conflicts: Conflict::list_from_bytes(&record.conflicts).unwrap(),
            pairings: answer.pairings,
        }),
    }
}

#[test]
fn values_give_the_recorded_answers() {
    let (mut answered, mut refused, mut unreadable) = (0, 0, 0);
    for (index, record) in records().iter().enumerate() {
        let Some(expected) = expected(record) else { continue };
        match values(record, &expected, index) {
            Ok(true) => answered += 1,
            Ok(false) => refused += 1,
            Err(fault) => {
                unreadable += 1;
                unread(fault, &expected, index);
            }
        }
    }
    println!("{answered} answered, {refused} refused, {unreadable} unreadable");
    assert!(answered > 1_000 && refused > 100 && unreadable > 100);
}

/// Bytes that are no value are refused by the library, too: as bytes, or for their nodes.
fn unread(error: BytesError, expected: &Expected, index: usize) {
    let refused = match expected {
        Expected::Received(None) => true,
        Expected::Refused(refusal) if error.fault == ByteFault::TooDeep => {
            *refusal <= Refusal::TooManyNodes
        }
        Expected::Refused(refusal) => *refusal <= Refusal::BadSecond,
        _ => false,
    };
    assert!(refused, "record {index}: {error}");
}

/// Puts a record's values to a merger. True if it is answered.
fn values(record: &Record, expected: &Expected, index: usize) -> Result<bool, BytesError> {
    if record.call == 0 {
        let first = QPtrMemUsage::from_bytes(&record.first)?;
        let second = QPtrMemUsage::from_bytes(&record.second)?;
        let merger = UsageMerger::new(&Table::default()).unwrap().with_choices(record.choices);
        let received = merger.receiver(&first, &second).ok();
        assert!(matches!(expected, Expected::Received(part) if *part == received), "{index}");
        return Ok(received.is_some());
    }
    let table = Table::from_bytes(&record.table)?;
    let asked = match UsageMerger::new(&table) {
        Ok(merger) => ask(&mut merger.with_choices(record.choices), record)?,
        Err(error) => Err(error),
    };
    match (asked, expected) {
        (Ok(Given::Says(yes)), Expected::Says(expected)) => assert_eq!(yes, *expected, "{index}"),
        (Ok(Given::Written(given)), Expected::Written { usage, conflicts, pairings }) => {
            let MergeResult { merged, conflicts: found, pairings: made } = given;
            assert_eq!((&merged, &found, &made), (usage, conflicts, pairings), "record {index}");
        }
        (Err(error), Expected::Refused(refusal)) => {
            assert_eq!(error, Error::Refused(*refusal), "record {index}");
            return Ok(false);
        }
        _ => panic!("record {index} is answered otherwise"),
    }
    Ok(true)
}

enum Given {
    Says(bool),
    Written(MergeResult<QPtrUsage>),
}

fn ask(merger: &mut UsageMerger, record: &Record) -> Result<Result<Given, Error>, BytesError> {
    let first = || QPtrMemUsage::from_bytes(&record.first);
    let memory = |given: MergeResult<QPtrMemUsage>| Given::Written(given.map(QPtrUsage::Memory));
    Ok(match record.call {
        1 => {
            let usage = first()?;
            let yes = merger.supports_usage_at_offset(Type(record.ty), record.offset, &usage);
            yes.map(Given::Says)
        }
        2 => {
            let (a, b) = (first()?, QPtrMemUsage::from_bytes(&record.second)?);
            merger.merge_mem_at(&a, record.offset, &b).map(memory)
        }
        3 => {
            let a = QPtrUsage::from_bytes(&record.first)?;
            let b = QPtrUsage::from_bytes(&record.second)?;
            merger.merge(&a, &b).map(Given::Written)
        }
        4 => merger.fold(&list_from_bytes(&record.first)?).map(memory),
        _ => merger.is_sound(&first()?).map(Given::Says),
    })
}
