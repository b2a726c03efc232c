//! Worked rows: document 01's, directed ones for faults that random calls hardly ever show, and rows
//! with other choices than the default.

mod directed;
mod limits;
mod lookup;
mod ties;

pub use directed::directed;
pub use limits::limits;
pub use lookup::{decided_by_lookup, lookup, whatever_lookup};
pub use ties::{decided_by_ties, ties, whatever_ties};

/// All rows with other choices than the default.
pub fn with_choices() -> Vec<Row> {
    [ties(), lookup()].concat()
}

use crate::notation::{report_words, table, top, usage};
use crate::reading::calls::WORK_AREA;
use crate::reading::faults::Faults;
use crate::reading::streams::{read_top, write_list, write_memory, write_top};
use crate::reading::tables::write_table;
use crate::side::{Answer, Buffer, Call, CallKind, Choices, Side};

/// The table of the bench pairs.
pub const BENCH_TABLE: &str =
    "scalar 4; scalar 4; fields 8 {0:0 4:1}; elements 16 (4, 0, 4); handle";

/// What a row says of its call.
#[derive(Clone, Debug, PartialEq, Eq)]
pub enum Promise {
    /// The usage, the report and the pairings, in document 01's notation.
    Gives(&'static str, &'static str, u64),
    Refused(u64),
    Says(bool),
    /// Receiver's part: 0 empty, 1 the first, 2 the second.
    Receives(u64),
    /// Not refused.
    Answered,
    /// Nothing is written down; the reference says it.
    Open,
}

/// A call and what is promised of it.
#[derive(Clone, Debug)]
pub struct Row {
    pub call: Call,
    pub promise: Promise,
}

impl Row {
    /// What a side says against the promise, if anything.
    pub fn broken_by(&self, side: &dyn Side) -> Option<String> {
        let answer = side.answer(&self.call);
        let Row { call, promise } = self;
        let told =
            || format!("{call}\n  promised {promise:?}\n  {} says\n    {answer}", side.name());
        (!self.is_kept_by(&answer)).then(told)
    }

    fn is_kept_by(&self, answer: &Answer) -> bool {
        let Call { output, report, .. } = self.call;
        // After the answer's own bytes the output is as before, and the report is zeros.
        let buffers = output.overwritten(answer.usage()) == Some(answer.output.clone())
            && report.zeroed().overwritten(answer.conflicts()) == Some(answer.report.clone());
        let empty =
            Answer { output: output.bytes(), report: report.zeroed().bytes(), ..Answer::default() };
        buffers
            && match self.promise {
                Promise::Gives(usage, report, pairings) => {
                    answer.number == 0
                        && read_top(answer.usage(), Faults::NONE) == Some(top(usage))
                        && report_words(answer.conflicts()) == report
                        && answer.pairings == pairings
                }
                Promise::Answered => answer.number == 0,
                Promise::Refused(number) | Promise::Receives(number) => {
                    *answer == Answer { number, ..empty }
                }
                Promise::Says(yes) => *answer == Answer { yes: u64::from(yes), ..empty },
                Promise::Open => true,
            }
    }
}

fn call(kind: CallKind, rows_table: &str) -> Call {
    let buffer = match kind.writes() {
        true => Buffer { length: 128, fill: 0xa5 },
        false => Buffer::NONE,
    };
    Call {
        kind,
        choices: Choices::default(),
        table: write_table(&table(rows_table)),
        work: WORK_AREA,
        ty: 0,
        offset: 0,
        first: Vec::new(),
        second: Vec::new(),
        output: buffer,
        report: buffer,
    }
}

fn merge(rows_table: &str, first: &str, second: &str, promise: Promise) -> Row {
    let streams = [first, second].map(|text| write_top(&top(text)));
    let [first, second] = streams;
    Row { call: Call { first, second, ..call(CallKind::Merge, rows_table) }, promise }
}

fn place(rows_table: &str, first: &str, offset: u32, second: &str, promise: Promise) -> Row {
    let [first, second] = [first, second].map(|text| write_memory(&usage(text)));
    Row { call: Call { first, second, offset, ..call(CallKind::Place, rows_table) }, promise }
}

fn fold(rows_table: &str, nodes: &[&str], promise: Promise) -> Row {
    let nodes: Vec<_> = nodes.iter().map(|text| usage(text)).collect();
    Row { call: Call { first: write_list(&nodes), ..call(CallKind::Fold, rows_table) }, promise }
}

fn supports(rows_table: &str, ty: u32, offset: u32, text: &str, promise: Promise) -> Row {
    let first = write_memory(&usage(text));
    Row { call: Call { first, ty, offset, ..call(CallKind::Supports, rows_table) }, promise }
}

fn sound(text: &str, yes: bool) -> Row {
    let first = write_memory(&usage(text));
    let call = Call { first, ..call(CallKind::Sound, BENCH_TABLE) };
    Row { call, promise: Promise::Says(yes) }
}

fn receiver(first: &str, second: &str, promise: Promise) -> Row {
    let [first, second] = [first, second].map(|text| write_memory(&usage(text)));
    let call = Call { table: Vec::new(), work: 0, first, second, ..call(CallKind::Receiver, "") };
    Row { call, promise }
}

/// Document 01's 14 bench pairs, in its order.
pub fn bench() -> Vec<Row> {
    use Promise::{Gives, Refused};
    let row = |first, second, promise| merge(BENCH_TABLE, first, second, promise);
    vec![
        row("U0", "U0", Gives("U0", "", 1)),
        row("D4,0", "D4,1", Gives("D4,1", "32", 1)),
        row("O8[4:D4,1]", "D8,2", Gives("D8,2", "", 2)),
        row("O8[0:D4,0]", "O8[4:D4,1]", Gives("O8[0:D4,0 4:D4,1]", "", 2)),
        row("O12[0:D4,0 4:D4,0]", "O12[2:D4,0]", Gives("O12[4:D4,0]", "30, 31 0, 36 2 0", 3)),
        row("A16,4,D4,0", "D16,3", Gives("D16,3", "", 1)),
        row("A12,4,D4,0", "D16,3", Gives("D16,3", "32", 1)),
        row("A32,16,D4,0", "O32[8:D4,0]", Refused(8)),
        row("A32,16,O16[0:D4,0]", "O32[8:D4,0]", Gives("A32,16,O16[0:D4,0 8:D4,0]", "", 3)),
        row("O16[4:D4,0]", "O16[0:U16]", Gives("O16[0:D16,0]", "", 3)),
        row("O8[4:D0,0]", "O8[4:D4,0]", Gives("O8[4:D0,0]", "", 2)),
        row("O16[16:D0,0]", "D16,3", Gives("D16,3", "", 2)),
        row("D4,4", "D4,0", Gives("D4,4", "33", 1)),
        row("O*[4294967294:D4,0]", "O*[0:D*,0]", Refused(9)),
    ]
}

/// The example that document 01 prints.
pub fn printed_example() -> Row {
    merge(BENCH_TABLE, "O8[0:D4,1]", "D8,2", Promise::Gives("D8,2", "30, 31 0, 32", 2))
}

/// Document 01's bench pairs and its printed example, but for those that a choice decides.
fn bench_without(decided: &[Row]) -> Vec<Row> {
    let streams = |row: &Row| [row.call.first.clone(), row.call.second.clone()];
    let decided: Vec<_> = decided.iter().map(streams).collect();
    let rows = bench().into_iter().chain([printed_example()]);
    rows.filter(|row| !decided.contains(&streams(row))).collect()
}
