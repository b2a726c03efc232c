//! The recorded answers, read from their file: `differential/README.md` says how it is laid out.

use usage_merger::Choices;
use usage_merger::calls::Answer;

const ANSWERS: &str = concat!(env!("CARGO_MANIFEST_DIR"), "/../../crates/replay/data/answers.bin");

/// A call with its answer: what a kind of call does not have is 0 or empty.
pub struct Record {
    /// 0 receiver, 1 supports, 2 place, 3 merge, 4 fold, 5 sound.
    pub call: u8,
    pub work: usize,
    pub ty: u32,
    pub offset: u32,
    pub choices: Choices,
    pub table: Vec<u8>,
    pub first: Vec<u8>,
    pub second: Vec<u8>,
    /// The buffers before the call.
    pub output: Vec<u8>,
    pub report: Vec<u8>,
    /// Of receiver, the number is 0 for nobody, 1 for the first and 2 for the second.
    pub answer: Answer,
    pub usage: Vec<u8>,
    pub conflicts: Vec<u8>,
}

/// All of them.
pub fn records() -> Vec<Record> {
    let mut file = File(std::fs::read(ANSWERS).expect("the recorded answers can be read"));
    let count = file.four();
    let records = (0..count).map(|_| record(File(file.block()))).collect();
    assert!(file.0.is_empty());
    records
}

/// What is left of the file.
struct File(Vec<u8>);

impl File {
    fn part(&mut self, length: usize) -> Vec<u8> {
        self.0.drain(..length).collect()
    }

    fn byte(&mut self) -> u8 {
        self.part(1)[0]
    }

    fn four(&mut self) -> u32 {
        u32::from_le_bytes(self.part(4).try_into().unwrap())
    }

    fn block(&mut self) -> Vec<u8> {
        let length = self.four() as usize;
        self.part(length)
    }

    fn buffer(&mut self) -> Vec<u8> {
        let length = self.four() as usize;
        vec![self.byte(); length]
    }
}

fn record(mut file: File) -> Record {
    let (call, work) = (file.byte(), file.four() as usize);
    let (ty, offset, choices) = (file.four(), file.four(), Choices::of(file.four()));
    let (table, first, second) = (file.block(), file.block(), file.block());
    let (output, report) = (file.buffer(), file.buffer());
    let mut number = || u64::from(file.four());
    let answer = Answer {
        number: number(),
        yes: number(),
        usage_length: number(),
        report_length: number(),
        pairings: number(),
    };
    let usage = file.part(answer.usage_length as usize);
    let conflicts = file.part(answer.report_length as usize);
    assert!(file.0.is_empty());
    Record {
        call,
        work,
        ty,
        offset,
        choices,
        table,
        first,
        second,
        output,
        report,
        answer,
        usage,
        conflicts,
    }
}
