//! Deep input on a small stack: reading, writing and refusing need next to none of it, merging at
//! most 700 KiB.

use std::thread;
use usage_merger::calls::{Buffers, MOST_NODES, Setting, WORK_AREA, merge};
use usage_merger::{Choices, QPtrMemUsage, QPtrMemUsageKind, Table, Ties};

/// Runs something on a thread with this much stack.
fn on_stack<T: Send + 'static>(kibibytes: usize, run: impl FnOnce() -> T + Send + 'static) -> T {
    let thread = thread::Builder::new().stack_size(kibibytes << 10).spawn(run).unwrap();
    thread.join().unwrap()
}

#[test]
fn deep_text_and_bytes_are_refused() {
    let text = "O1[0:A1,1,".repeat(100_000);
    let bytes = [&[0x0a][..], &[4, 1, 1, 0, 0, 0, 1, 0, 0, 0].repeat(100_000)].concat();
    let refused = on_stack(128, move || {
        (text.parse::<QPtrMemUsage>().is_err(), QPtrMemUsage::from_bytes(&bytes).is_err())
    });
    assert_eq!(refused, (true, true));
}

#[test]
fn a_deep_value_is_written() {
    let mut deep = QPtrMemUsage::UNUSED;
    for level in 0..100_000 {
        let kind = QPtrMemUsageKind::OffsetBase([(level, deep)].into());
        deep = QPtrMemUsage { max_size: None, kind };
    }
    let (deep, lengths) = on_stack(64, move || {
        let lengths = (deep.to_bytes().map(|bytes| bytes.len()), deep.to_string().len());
        (deep, lengths)
    });
    assert_eq!(lengths.0, Ok(1 + 100_000 * 12 + 6));
    assert!(lengths.1 > 800_000);
    // Dropping is recursive; so it is taken apart here.
    let mut left = deep;
    while let QPtrMemUsageKind::OffsetBase(entries) = left.kind {
        left = entries.into_values().next().unwrap();
    }
}

/// The deepest merges that are known: 512 nodes, each of which is one level, and 1,024 types below.
/// With ties to the first these are arrays and maps in turn: of arrays alone one side stays whole.
#[test]
fn kibibytes_700_are_enough_for_the_deepest_merges() {
    deepest(Ties::Second, |inside| format!("{}{inside}", "A4,4,".repeat(254)));
    deepest(Ties::First, |inside| {
        format!("{}{inside}{}", "O4[0:A4,4,".repeat(127), "]".repeat(127))
    });
}

fn deepest(ties: Ties, nest: impl Fn(&str) -> String) {
    let wrappers: String = (0..1_023).map(|ty| format!("; fields 4 {{0:{ty}}}")).collect();
    let table: Table = format!("scalar 4{wrappers}").parse().unwrap();
    let usages = ["D4,1023", "O4[0:O4[0:D4,0]]"].map(|inside| nest(inside).parse().unwrap());
    assert_eq!(usages.iter().map(QPtrMemUsage::nodes).sum::<usize>(), MOST_NODES);
    let streams = usages.map(|usage| usage.to_bytes().unwrap());
    let table = table.to_bytes().unwrap();
    let answer = on_stack(700, move || {
        let (mut work, mut output, mut report) = (vec![0; WORK_AREA], vec![0; 8_192], vec![0; 64]);
        let choices = Choices::default().with_ties(ties);
        let setting = Setting { table: &table, work: &mut work, choices };
        let to = Buffers { output: &mut output, report: &mut report };
        merge(setting, &streams[0], &streams[1], to)
    });
    assert_eq!((answer.number, answer.pairings), (0, 511));
}
