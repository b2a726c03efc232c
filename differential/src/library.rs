//! The port as a side: the calls of the static library, through `bindings/rust`.

use crate::side::{Answer, Call, CallKind, Side};
use std::hint::black_box;
use std::time::{Duration, Instant};
use usage_merger::Choices;
use usage_merger::calls::{self, Buffers, Setting};

/// The static library.
#[derive(Clone, Copy, Debug, Default)]
pub struct Library;

impl Side for Library {
    fn name(&self) -> String {
        "library".into()
    }

    fn answer(&self, call: &Call) -> Answer {
        let mut lent = Lent::new(call, 0);
        let told = ask(call, &mut lent);
        let Lent { output, report, .. } = lent;
        Answer {
            number: told.number,
            yes: told.yes,
            usage_length: told.usage_length,
            report_length: told.report_length,
            pairings: told.pairings,
            output,
            report,
        }
    }
}

/// How long so many askings of a call take, all with the same buffers; the work area starts so far inside of its own.
pub fn time(call: &Call, times: u32, start: usize) -> Duration {
    let mut lent = Lent::new(call, start);
    let begun = Instant::now();
    for _ in 0..times {
        black_box(ask(call, &mut lent));
    }
    begun.elapsed()
}

fn ask(call: &Call, Lent { work, start, output, report }: &mut Lent) -> calls::Answer {
    let Call { table, ty, offset, first, second, .. } = call;
    let choices = choices_of(call);
    let setting = Setting { table, work: &mut work[*start..], choices };
    let buffers = Buffers { output, report };
    match call.kind {
        CallKind::Receiver => calls::Answer {
            number: u64::from(calls::receiver(choices, first, second)),
            yes: 0,
            usage_length: 0,
            report_length: 0,
            pairings: 0,
        },
        CallKind::Supports => calls::supports(setting, *ty, *offset, first),
        CallKind::Place => calls::place(setting, first, *offset, second, buffers),
        CallKind::Merge => calls::merge(setting, first, second, buffers),
        CallKind::Fold => calls::fold(setting, first, buffers),
        CallKind::Sound => calls::sound(setting, first),
    }
}

/// The call's choices, as the bindings have them.
fn choices_of(call: &Call) -> Choices {
    Choices::of(call.choices.number())
}

/// What is lent to a call to be written.
struct Lent {
    work: Vec<u8>,
    /// Where in `work` the work area starts.
    start: usize,
    output: Vec<u8>,
    report: Vec<u8>,
}

impl Lent {
    fn new(call: &Call, start: usize) -> Lent {
        Lent {
            // What a call leaves in its work area is free, and what it finds there is arbitrary.
            work: vec![0xee; start + call.work],
            start,
            output: call.output.bytes(),
            report: call.report.bytes(),
        }
    }
}
