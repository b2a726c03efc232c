//! The questions of the four shapes and of the worst inputs found, ours and the reference's, and the time of our call. What the shapes
//! are promised to take at most is checked on the way.

use super::plain::{Counted, plain};
use super::port::{Asked, ours};
use super::shapes::{Question, arrays, layers, merged, strides, wrappers};
use super::worst_found;
use crate::library::{Library, time};
use crate::reading::calls::WORK_AREA;
use crate::reading::streams::write_memory;
use crate::reading::tables::write_table;
use crate::side::{Buffer, Call, CallKind, Choices, Side};
use crate::usage::{Entry, Kind, Size, Usage};
use std::time::Duration;

/// The runs of one figure, of which the median counts.
const RUNS: usize = 5;

/// How long the runs of one figure take together, about.
const TOGETHER: Duration = Duration::from_millis(50);

/// No input here asks more.
const MOST: u64 = 50_000_000;

/// An input with its name, and what it may take.
struct Row {
    shape: &'static str,
    size: String,
    question: Question,
    kind: CallKind,
    most: Most,
}

/// The most questions, and the longest time of a call.
#[derive(Clone, Copy)]
struct Most {
    questions: u64,
    time: Duration,
}

const ANY: Most = Most { questions: u64::MAX, time: Duration::MAX };

fn rows() -> Vec<Row> {
    let within = |n| Most { time: Duration::from_millis(n), ..ANY };
    let product = |k: u32| Most { questions: 20 * u64::from(k + 1).pow(2), ..within(50) };
    let wrapped = |k: u32| {
        Row::asked("wrappers and maps", format!("k = j = {k}"), wrappers(k, k), product(k))
    };
    let nested = |k: u32| Row::asked("nested arrays", format!("k = {k}"), arrays(k), within(50));
    let merging = |k: u32| Row {
        kind: CallKind::Merge,
        ..Row::asked("the first, merged", format!("k = j = {k}"), merged(k, k), product(k))
    };
    let layered =
        |l: u32| Row::asked("layers of size 0", format!("L = {l}"), layers(l), within(1_000));
    let mut rows: Vec<Row> = [10, 14, 20, 250].map(wrapped).into();
    rows.extend([24, 200].map(nested));
    rows.extend([13, 100].map(merging));
    rows.extend([4, 15].map(layered));
    rows.extend(
        worst_found::all().into_iter().map(|(shape, size, q)| Row::asked(shape, size, q, ANY)),
    );
    rows
}

/// The table in Markdown, or what takes more than it may.
pub fn table() -> Result<String, String> {
    let mut lines = vec![
        "| shape | size | nodes | types | reference's questions | distinct ones | ours | ours for each node and type | our call |"
            .to_owned(),
        "|---|---|---|---|---|---|---|---|---|".to_owned(),
    ];
    for row in rows() {
        lines.push(row.line()?);
    }
    Ok(lines.join("\n"))
}

/// How long the layout test takes where no memory helps: dynamic elements inside of dynamic elements, one call each.
pub fn slow() -> String {
    let mut lines = vec!["| nodes | types | our call |".to_owned(), "|---|---|---|".to_owned()];
    for k in [19, 25, 27, 29] {
        let row = Row::asked("strides that differ", String::new(), strides(k, k), ANY);
        let (nodes, types) = (row.question.nodes(), row.question.types());
        lines.push(format!("| {nodes} | {types} | {:.2?} |", time(&row.call(), 1, 0)));
    }
    lines.join("\n")
}

impl Row {
    /// An input of the call supports.
    fn asked(shape: &'static str, size: String, question: Question, most: Most) -> Row {
        Row { shape, size, question, kind: CallKind::Supports, most }
    }

    fn line(&self) -> Result<String, String> {
        let Row { shape, size, question, .. } = self;
        let Question { table, ty, at, usage } = question;
        let (nodes, types) = (question.nodes(), question.types());
        let too_many = || format!("{shape}, {size}: past {MOST} questions");
        let Asked { yes, questions } = ours(table, *ty, *at, usage, MOST).ok_or_else(too_many)?;
        let Counted { calls, distinct, .. } =
            plain(table, *ty, *at, usage, MOST as usize).ok_or_else(too_many)?;
        let time = self.timed(yes)?;
        if questions > self.most.questions || time > self.most.time {
            return Err(format!("{shape}, {size}: {questions} questions, {time:.1?}: too much"));
        }
        let each = questions as f64 / (nodes * types) as f64;
        let (calls, ours) = (number(calls), number(questions as f64));
        let distinct = number(distinct as f64);
        Ok(format!(
            "| {shape} | {size} | {nodes} | {types} | {calls} | {distinct} | {ours} | {each:.2} | {time:.1?} |"
        ))
    }

    /// The median time of our call, which has to answer as it should.
    fn timed(&self, yes: bool) -> Result<Duration, String> {
        let call = self.call();
        let answer = Library.answer(&call);
        let right = match self.kind {
            CallKind::Merge => answer.pairings == 2,
            _ => answer.yes == u64::from(yes),
        };
        if answer.number != 0 || !right {
            return Err(format!("{}, {}: {answer}", self.shape, self.size));
        }
        let each = TOGETHER.as_nanos() / RUNS as u128 / time(&call, 1, 0).as_nanos().max(1);
        let times = each.clamp(1, 1_000) as u32;
        let mut runs: Vec<Duration> = (0..RUNS).map(|_| time(&call, times, 0) / times).collect();
        runs.sort_unstable();
        Ok(runs[RUNS / 2])
    }

    fn call(&self) -> Call {
        let Question { table, ty, at, usage } = &self.question;
        let (first, second) = match self.kind {
            CallKind::Merge => merge_that_asks(*ty, *at, usage),
            _ => (write_memory(usage), Vec::new()),
        };
        let buffer = Buffer { length: first.len() + second.len() + 64, fill: 0 };
        Call {
            kind: self.kind,
            choices: Choices::default(),
            table: write_table(table),
            work: WORK_AREA,
            ty: *ty,
            offset: *at,
            first,
            second,
            output: buffer,
            report: buffer,
        }
    }
}

/// Two usages of 8 bytes whose merge asks whether the type supports a usage at the offset.
fn merge_that_asks(ty: u32, at: u32, usage: &Usage) -> (Vec<u8>, Vec<u8>) {
    let size = Size::Fixed(8);
    let leaf = Usage { size, kind: Kind::Leaf { strict: false, ty } };
    let entry = Entry { offset: at, node: usage.clone() };
    (write_memory(&leaf), write_memory(&Usage { size, kind: Kind::Map(vec![entry]) }))
}

/// A number with commas, or with a power of ten past a million million.
pub fn number(number: f64) -> String {
    if number >= 1e12 {
        return format!("{number:.1e}").replace('e', " × 10^");
    }
    let digits = format!("{number:.0}");
    let mut words = String::new();
    for (place, digit) in digits.char_indices() {
        if place > 0 && (digits.len() - place).is_multiple_of(3) {
            words.push(',');
        }
        words.push(digit);
    }
    words
}

#[cfg(test)]
mod tests {
    use super::number;

    #[test]
    fn numbers_are_written_as_they_are_read() {
        let written = [7.0, 1_024.0, 705_431.0, 538_257_874_439.0, 9.99e59].map(number);
        assert_eq!(written, ["7", "1,024", "705,431", "538,257,874,439", "1.0 × 10^60"]);
    }
}
