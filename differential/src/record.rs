//! Recorded answers: a fixed list of calls with all that they give back, as bytes.
//!
//! README.md says how the file is laid out.

use crate::compare::{agreed, choices_shown, judge};
use crate::generate::{Calls, Source};
use crate::notation::report_commands;
use crate::reading::bytes::{Reader, put_four};
use crate::reading::calls::WORK_AREA;
use crate::reading::report::{AT_NODE, CONFLICTS, UNLIKE};
use crate::reading::{Reading, Refusal};
use crate::rows::{Row, bench, directed, limits, printed_example, with_choices};
use crate::side::{
    Answer, Buffer, Call, CallKind, Choices, Lookup, Side, Ties, all_choices, choices_numbered,
};
use std::collections::{HashMap, HashSet};

/// The seed of the generated calls in the list.
const SEED: u64 = 1;

/// No record is longer than this, its length word not counted.
const LONGEST_RECORD: usize = 32 << 10;

/// The file is no longer than this.
const LONGEST_FILE: usize = 1 << 20;

/// The longest output or report buffer, and the longest work area.
const LONGEST_BUFFER: usize = 16 << 10;
const LONGEST_WORK: usize = WORK_AREA + 8;

/// A call with its answer.
pub struct Recorded {
    pub call: Call,
    pub answer: Answer,
}

impl Recorded {
    /// A call with what a side answers.
    pub fn of(side: &dyn Side, call: Call) -> Recorded {
        Recorded { answer: side.answer(&call), call }
    }

    /// A call with what is right.
    pub fn judged(call: Call) -> Recorded {
        Recorded::of(judge(call.choices), call)
    }
}

/// The fixed list: all worked rows, then generated calls of every category; then the rows with other
/// choices, and generated calls, small and large ones, with each of these.
pub fn recorded(reference: &dyn Side, reading: &dyn Side) -> Result<Vec<Recorded>, String> {
    let mut list = List { sides: [reference, reading], calls: Vec::new() };
    list.add_rows([bench(), vec![printed_example()], directed(), limits()].concat())?;
    for kind in CallKind::ALL {
        for (source, wanted) in wanted(kind) {
            let calls = Calls::new(kind, source, SEED).take(wanted * 200);
            list.add_various(calls, wanted, &mut Variety::new(Looks::closely, 40))?;
        }
    }
    list.add_rows(with_choices())?;
    for choices in all_choices().split_off(1) {
        list.add_with(choices)?;
        list.add_large_with(choices)?;
    }
    Ok(list.calls)
}

/// The list as far as it is made.
struct List<'a> {
    sides: [&'a dyn Side; 2],
    calls: Vec<Recorded>,
}

impl List<'_> {
    fn answered(&self, call: Call) -> Result<Recorded, String> {
        let answer = agreed(self.sides, &call).map_err(|d| d.to_string())?;
        Ok(Recorded { call, answer })
    }

    fn add_rows(&mut self, rows: Vec<Row>) -> Result<(), String> {
        for row in rows {
            if let Some(words) = row.broken_by(judge(row.call.choices)) {
                return Err(words);
            }
            self.calls.push(self.answered(row.call)?);
        }
        Ok(())
    }

    /// Adds at most so many of these calls. All of them are answered.
    fn add_various(
        &mut self,
        calls: impl Iterator<Item = Call>,
        wanted: usize,
        variety: &mut Variety,
    ) -> Result<(), String> {
        let mut found = 0;
        for call in calls {
            let recorded = self.answered(call)?;
            if found < wanted && variety.is_new_enough(&recorded) {
                found += 1;
                self.calls.push(recorded);
            }
        }
        Ok(())
    }

    /// Adds generated calls with these choices: each end and each conflict, and so again for all
    /// choices that show in it.
    fn add_with(&mut self, choices: Choices) -> Result<(), String> {
        for kind in CallKind::ALL.into_iter().filter(|kind| kind.takes(choices)) {
            let mut variety = Variety::new(Looks::roughly, 1);
            for source in SOUGHT {
                let calls = Calls::new(kind, source, SEED).with(choices);
                self.add_various(calls.filter(is_small).take(3_000), usize::MAX, &mut variety)?;
            }
        }
        Ok(())
    }

    /// Adds for each kind of call the shortest large one that has too many nodes, and the shortest
    /// in which the choices show, if they show in any: the lookup alone does not.
    fn add_large_with(&mut self, choices: Choices) -> Result<(), String> {
        for kind in CallKind::ALL.into_iter().filter(|kind| kind.takes(choices)) {
            let large = Calls::new(kind, Source::Large, SEED).with(choices).take(200);
            let mut large: Vec<_> = large.filter(is_large).collect();
            large.sort_by_key(input_bytes);
            for is_telling in [has_too_many_nodes, choices_show_in] {
                if let Some(call) = large.iter().find(|call| is_telling(call)) {
                    self.calls.push(self.answered(call.clone())?);
                }
            }
        }
        Ok(())
    }
}

/// Where calls with choices are looked for: first where the choices show.
const SOUGHT: [Source; 5] =
    [Source::Brink, Source::Tied, Source::Unsound, Source::Sound, Source::Damaged];

fn is_small(call: &Call) -> bool {
    call.first.len() + call.second.len() + call.table.len() < 600
}

fn is_large(call: &Call) -> bool {
    input_bytes(call) > 2_500
}

fn input_bytes(call: &Call) -> usize {
    call.first.len() + call.second.len()
}

fn has_too_many_nodes(call: &Call) -> bool {
    Reading::FAULTLESS.answer(call).number == Refusal::TooManyNodes.number()
}

fn choices_show_in(call: &Call) -> bool {
    choices_shown(call, &Reading::FAULTLESS.answer(call)) != 0
}

/// How many generated calls of a kind are taken from each source.
fn wanted(kind: CallKind) -> [(Source, usize); 4] {
    let (sound, unsound, damaged) = match kind {
        CallKind::Receiver => (30, 20, 30),
        CallKind::Supports => (120, 150, 50),
        CallKind::Place => (130, 250, 70),
        CallKind::Merge => (130, 190, 70),
        CallKind::Fold => (110, 140, 50),
        CallKind::Sound => (25, 60, 30),
    };
    let large = if kind.writes() { 4 } else { 2 };
    [
        (Source::Sound, sound),
        (Source::Unsound, unsound),
        (Source::Damaged, damaged),
        (Source::Large, large),
    ]
}

/// How a call looks from outside.
#[derive(PartialEq, Eq, Hash)]
struct Looks {
    number: u64,
    yes: u64,
    /// Some commands of the report.
    commands: Vec<u8>,
    /// Up to a few.
    pairings: u64,
    choices_shown: u32,
}

impl Looks {
    /// With the first commands of the report, and with pairings.
    fn closely(recorded: &Recorded) -> Looks {
        let commands = commands(&recorded.answer).take(4).collect();
        Looks::of(recorded, commands, 6)
    }

    /// With the first command and the last, which is no head of another.
    fn roughly(recorded: &Recorded) -> Looks {
        let first = commands(&recorded.answer).next();
        let last = commands(&recorded.answer).last();
        Looks::of(recorded, first.into_iter().chain(last).collect(), 0)
    }

    fn of(Recorded { call, answer }: &Recorded, commands: Vec<u8>, pairings: u64) -> Looks {
        Looks {
            number: answer.number,
            yes: answer.yes,
            commands,
            pairings: answer.pairings.min(pairings),
            choices_shown: choices_shown(call, answer),
        }
    }
}

/// The commands of an answer's report, in order.
fn commands(answer: &Answer) -> impl Iterator<Item = u8> {
    report_commands(answer.conflicts()).into_iter().map(|(command, _)| command)
}

/// Takes only so many calls that look alike, so that the list shows many things.
struct Variety {
    looks: fn(&Recorded) -> Looks,
    most: usize,
    seen: HashMap<Looks, usize>,
}

impl Variety {
    fn new(looks: fn(&Recorded) -> Looks, most: usize) -> Variety {
        Variety { looks, most, seen: HashMap::new() }
    }

    fn is_new_enough(&mut self, recorded: &Recorded) -> bool {
        let call = &recorded.call;
        if !is_small(call) && !is_large(call) {
            return false;
        }
        let seen = self.seen.entry((self.looks)(recorded)).or_default();
        *seen += 1;
        *seen <= self.most
    }
}

/// The numbers with which a kind of call can end.
fn numbers(kind: CallKind) -> &'static [u64] {
    match kind {
        CallKind::Receiver => &[0, 1, 2],
        CallKind::Supports => &[0, 1, 2, 3, 5, 6, 7],
        CallKind::Place | CallKind::Merge => &[0, 1, 2, 3, 4, 5, 7, 8, 9, 10, 11],
        CallKind::Fold => &[0, 1, 2, 3, 5, 7, 8, 9, 10, 11],
        CallKind::Sound => &[0, 1, 2, 3, 5, 7],
    }
}

/// What the list must show with the default choices, and with others: every end of every call, yes
/// and no, every conflict of every call that reports; and with each of the others every choice made,
/// and too many nodes.
pub fn check_coverage(list: &[Recorded]) -> Result<(), String> {
    let is_default = |one: &&Recorded| one.call.choices == Choices::default();
    let (default, others): (Vec<_>, Vec<_>) = list.iter().partition(is_default);
    for kind in CallKind::ALL {
        check_shown(kind, &default)?;
        if kind.takes_choices() {
            check_shown(kind, &others).map_err(|words| format!("with choices: {words}"))?;
        }
    }
    for choices in all_choices().split_off(1) {
        let made: Vec<_> = others.iter().filter(|one| one.call.choices == choices).collect();
        for kind in CallKind::ALL.into_iter().filter(|kind| kind.takes(choices)) {
            check_choices(kind, choices, &made)
                .map_err(|words| format!("choices {}: {words}", choices.number()))?;
        }
    }
    check_limits(list)
}

/// Of the calls with these choices and of this kind some have too many nodes, and some answer is
/// another one without each choice that matters to them.
fn check_choices(kind: CallKind, choices: Choices, made: &[&&Recorded]) -> Result<(), String> {
    let of_kind = || made.iter().filter(|one| one.call.kind == kind);
    let shown = of_kind().map(|one| choices_shown(&one.call, &one.answer));
    let shown = shown.fold(0, |all, shown| all | shown);
    let missing = mattering(kind, choices).number() & !shown;
    if missing != 0 {
        return Err(format!("no recorded {kind} shows {missing}"));
    }
    let too_many = Refusal::TooManyNodes.number();
    if numbers(kind).contains(&too_many) && !of_kind().any(|one| one.answer.number == too_many) {
        return Err(format!("no recorded {kind} ends with {too_many}"));
    }
    Ok(())
}

/// Those of the choices that can matter to a kind of call.
fn mattering(kind: CallKind, choices: Choices) -> Choices {
    match kind {
        CallKind::Receiver => choices.with_lookup(Lookup::default()),
        CallKind::Supports => choices.with_ties(Ties::default()),
        CallKind::Place | CallKind::Merge | CallKind::Fold => choices,
        CallKind::Sound => Choices::default(),
    }
}

fn check_shown(kind: CallKind, list: &[&Recorded]) -> Result<(), String> {
    check_ends(kind, list)?;
    check_conflicts(kind, list)
}

fn check_ends(kind: CallKind, list: &[&Recorded]) -> Result<(), String> {
    let answers = || list.iter().filter(|one| one.call.kind == kind).map(|one| &one.answer);
    for number in numbers(kind) {
        if !answers().any(|answer| answer.number == *number) {
            return Err(format!("no recorded {kind} ends with {number}"));
        }
    }
    let asks = matches!(kind, CallKind::Supports | CallKind::Sound);
    if asks && !(answers().any(|answer| answer.yes == 1)) {
        return Err(format!("no recorded {kind} says yes"));
    }
    Ok(())
}

fn check_conflicts(kind: CallKind, list: &[&Recorded]) -> Result<(), String> {
    let of_kind = list.iter().filter(|one| one.call.kind == kind);
    let met: HashSet<u8> = of_kind.flat_map(|one| commands(&one.answer)).collect();
    let mut missing = (CONFLICTS..=AT_NODE).filter(|command| !met.contains(command));
    match missing.find(|command| can_report(kind, *command)) {
        Some(command) => Err(format!("no recorded {kind} reports {command:x}")),
        None => Ok(()),
    }
}

/// Tops are merged alone, and nodes are told of a fold alone.
fn can_report(kind: CallKind, command: u8) -> bool {
    match command {
        UNLIKE => kind == CallKind::Merge,
        AT_NODE => kind == CallKind::Fold,
        _ => kind.writes(),
    }
}

/// Lengths that a reader with fixed buffers may rely on.
fn check_limits(list: &[Recorded]) -> Result<(), String> {
    let longest = list.iter().map(|one| record_bytes(one).len()).max().unwrap_or(0);
    let whole = to_bytes(list).len();
    if longest > LONGEST_RECORD || whole > LONGEST_FILE {
        return Err(format!("the recorded file is too long: {whole} bytes, one record {longest}"));
    }
    let roomy = |call: &Call| {
        call.work > LONGEST_WORK || call.output.length.max(call.report.length) > LONGEST_BUFFER
    };
    if let Some(one) = list.iter().find(|one| roomy(&one.call)) {
        return Err(format!("a recorded call has a buffer that is too long:\n{}", one.call));
    }
    Ok(())
}

/// The file: how many, and then each with its own length in front.
pub fn to_bytes(list: &[Recorded]) -> Vec<u8> {
    let mut bytes = Vec::new();
    put(&mut bytes, list.len());
    for recorded in list {
        let record = record_bytes(recorded);
        put(&mut bytes, record.len());
        bytes.extend(record);
    }
    bytes
}

fn record_bytes(Recorded { call, answer }: &Recorded) -> Vec<u8> {
    let mut bytes = vec![call.kind as u8];
    put(&mut bytes, call.work);
    put(&mut bytes, call.ty as usize);
    put(&mut bytes, call.offset as usize);
    put(&mut bytes, call.choices.number() as usize);
    for block in [&call.table, &call.first, &call.second] {
        put(&mut bytes, block.len());
        bytes.extend(block);
    }
    for buffer in [call.output, call.report] {
        put(&mut bytes, buffer.length);
        bytes.push(buffer.fill);
    }
    let Answer { number, yes, usage_length, report_length, pairings, .. } = *answer;
    for word in [number, yes, usage_length, report_length, pairings] {
        put(&mut bytes, word as usize);
    }
    bytes.extend(answer.usage());
    bytes.extend(answer.conflicts());
    bytes
}

/// All lengths and numbers of the file have four bytes.
fn put(bytes: &mut Vec<u8>, number: usize) {
    put_four(bytes, u32::try_from(number).expect("all numbers of the file have 32 bits"));
}

/// The list that a file holds; `None` if it is broken.
pub fn from_bytes(bytes: &[u8]) -> Option<Vec<Recorded>> {
    let mut file = Reader::new(bytes);
    let count = file.four()?;
    let mut list = Vec::new();
    for _ in 0..count {
        let mut record = Reader::new(block(&mut file)?);
        list.push(record_from(&mut record)?);
        if !record.is_empty() {
            return None;
        }
    }
    file.is_empty().then_some(list)
}

fn record_from(record: &mut Reader<'_>) -> Option<Recorded> {
    let number = record.byte()?;
    let kind = CallKind::ALL.into_iter().find(|known| *known as u8 == number)?;
    let call = Call {
        kind,
        work: record.four()? as usize,
        ty: record.four()?,
        offset: record.four()?,
        choices: choices_numbered(record.four()?).filter(|choices| kind.takes(*choices))?,
        table: block(record)?.to_vec(),
        first: block(record)?.to_vec(),
        second: block(record)?.to_vec(),
        output: Buffer { length: record.four()? as usize, fill: record.byte()? },
        report: Buffer { length: record.four()? as usize, fill: record.byte()? },
    };
    let mut words = [0; 5];
    for word in &mut words {
        *word = u64::from(record.four()?);
    }
    let [number, yes, usage_length, report_length, pairings] = words;
    let output = call.output.overwritten(record.part(usage_length as usize)?)?;
    let report = call.report.zeroed().overwritten(record.part(report_length as usize)?)?;
    let answer = Answer { number, yes, usage_length, report_length, pairings, output, report };
    Some(Recorded { call, answer })
}

/// A length and so many bytes.
fn block<'a>(bytes: &mut Reader<'a>) -> Option<&'a [u8]> {
    let length = bytes.four()?;
    bytes.part(length as usize)
}
