//! `UsageMerger`: the calls on values.

use crate::calls::{self, Answer, Buffers, MOST_NODES, Setting, WORK_AREA};
use crate::choices::Choices;
use crate::conflict::Conflict;
use crate::error::Error;
use crate::refusal::Refusal;
use crate::streams::list_to_bytes;
use crate::table::Table;
use crate::usage::{QPtrMemUsage, QPtrUsage, Type};

/// The longest usage that is written: a top, and for each node at most an offset, a command, a size
/// and an argument.
const LONGEST_OUTPUT: usize = 1 + MOST_NODES * 14;

/// The longest report: 14 bytes for each pairing, of which there are at most as many as pairs of
/// nodes.
const LONGEST_REPORT: usize = MOST_NODES * (MOST_NODES - 1) / 2 * 14;

/// The report buffer at first. Most reports are empty.
const FIRST_REPORT: usize = 256;

/// Merges usages, as SPIR-T's `UsageMerger` does, over one layout table.
///
/// It keeps the table's bytes, the choices, the work area and the buffers, and enlarges the buffers
/// where an answer needs more. Nothing that a call answers depends on the calls before it. A new
/// one does what the source does; [`with_choices`](UsageMerger::with_choices) has that changed.
///
/// Usages of over 512 nodes together are refused, not merged; a larger value is still written and
/// read whole before that. Merging and support recurse in the library: 640 KiB of stack was enough
/// for the deepest calls that are known. Support remembers answers, so that small questions which
/// take the source very long are answered at once; but over a table with dynamic elements inside of
/// dynamic elements a question can still take long, so run a call on tables or usages from strangers
/// where it can be stopped.
///
/// ```
/// use usage_merger::{QPtrMemUsage, Table, UsageMerger};
///
/// let mut merger = UsageMerger::new(&Table::bench())?;
/// let (a, b): (QPtrMemUsage, QPtrMemUsage) = ("O8[0:D4,0]".parse()?, "O8[4:D4,1]".parse()?);
/// let answer = merger.merge_mem(&a, &b)?;
/// assert_eq!(answer.merged.to_string(), "O8[0:D4,0 4:D4,1]");
/// assert!(answer.conflicts.is_empty());
/// assert_eq!(answer.pairings, 2);
/// # Ok::<(), Box<dyn std::error::Error>>(())
/// ```
#[derive(Clone, Debug)]
pub struct UsageMerger {
    choices: Choices,
    table: Vec<u8>,
    work: Vec<u8>,
    output: Vec<u8>,
    report: Vec<u8>,
}

/// What merging comes to. The merged usage is there even if there are conflicts.
#[derive(Clone, Debug, PartialEq, Eq, Hash)]
pub struct MergeResult<T> {
    /// The merged usage.
    pub merged: T,
    /// The conflicts, in the order in which they were met.
    pub conflicts: Vec<Conflict>,
    /// How many placings of one usage into another it took.
    pub pairings: u64,
}

impl<T> MergeResult<T> {
    /// The merged usage if there was no conflict, else the conflicts.
    ///
    /// # Errors
    /// If there was a conflict.
    pub fn into_result(self) -> Result<T, Vec<Conflict>> {
        if self.conflicts.is_empty() { Ok(self.merged) } else { Err(self.conflicts) }
    }

    /// The same with something made of the usage.
    pub fn map<U>(self, f: impl FnOnce(T) -> U) -> MergeResult<U> {
        let MergeResult { merged, conflicts, pairings } = self;
        MergeResult { merged: f(merged), conflicts, pairings }
    }
}

/// Which of two usages receives the other when they are merged: the larger, of equally large ones
/// the stricter, and on a tie of both the one that is chosen ([`Ties`](crate::Ties)).
#[derive(Clone, Copy, Debug, PartialEq, Eq, Hash)]
pub enum Receiver {
    /// The first.
    First,
    /// The second, also on a tie where nothing is chosen.
    Second,
}

/// The usage, report and pairings of an answer, still as bytes.
type Written = MergeResult<Vec<u8>>;

impl UsageMerger {
    /// A merger over this table.
    ///
    /// ```
    /// use usage_merger::{Error, Refusal, Table, UsageMerger};
    /// let its_own_component: Table = "elements 16 (4, 0, 4)".parse()?;
    /// let refused = UsageMerger::new(&its_own_component).unwrap_err();
    /// assert_eq!(refused, Error::Refused(Refusal::BadTable));
    /// # Ok::<(), usage_merger::NotationError>(())
    /// ```
    ///
    /// # Errors
    /// [`Refusal::BadTable`] if the table breaks the table rules.
    pub fn new(table: &Table) -> Result<UsageMerger, Error> {
        UsageMerger::from_table_bytes(table.to_bytes()?)
    }

    /// A merger over the table that has these bytes.
    ///
    /// # Errors
    /// [`Refusal::BadTable`] if the bytes are no table, or it breaks the table rules.
    pub fn from_table_bytes(table: Vec<u8>) -> Result<UsageMerger, Error> {
        let work = vec![0; WORK_AREA];
        let report = vec![0; FIRST_REPORT];
        let choices = Choices::default();
        let mut merger = UsageMerger { choices, table, work, output: Vec::new(), report };
        // Any question tells whether the table is accepted.
        merger.is_sound(&QPtrMemUsage::UNUSED)?;
        Ok(merger)
    }

    /// The same merger with these choices, for all calls that it makes from now on.
    ///
    /// With ties to the first, of accesses that tie the one declared first stays:
    ///
    /// ```
    /// # use usage_merger::{Choices, QPtrMemUsage, Receiver, Table, Ties, UsageMerger};
    /// let (a, b): (QPtrMemUsage, QPtrMemUsage) = ("D4,0".parse()?, "D4,1".parse()?);
    /// let mut merger = UsageMerger::new(&Table::bench())?;
    /// assert_eq!(merger.merge_mem(&a, &b)?.merged, b);
    ///
    /// let mut merger = merger.with_choices(Choices::default().with_ties(Ties::First));
    /// assert_eq!(merger.receiver(&a, &b)?, Receiver::First);
    /// assert_eq!(merger.merge_mem(&a, &b)?.merged, a);
    /// assert_eq!(merger.fold([&a, &b, &b])?.merged, a);
    /// # Ok::<(), Box<dyn std::error::Error>>(())
    /// ```
    ///
    /// With the strict lookup, an access one past an array's last element conflicts with the array. The
    /// merged usage, the pairings and what is refused are the same. Choices combine:
    ///
    /// ```
    /// # use usage_merger::{Choices, ConflictKind, Lookup, QPtrMemUsage, Table, Ties, UsageMerger};
    /// let both = Choices::default().with_ties(Ties::First).with_lookup(Lookup::Strict);
    /// let mut merger = UsageMerger::new(&Table::bench())?.with_choices(both);
    /// let (past, array): (QPtrMemUsage, QPtrMemUsage) = ("O16[16:D0,0]".parse()?, "D16,3".parse()?);
    /// let answer = merger.merge_mem(&past, &array)?;
    /// assert_eq!((answer.merged, answer.pairings), (array, 2));
    /// assert_eq!(answer.conflicts[0].offsets, [16]);
    /// assert_eq!(answer.conflicts[0].kind, ConflictKind::Type);
    /// # Ok::<(), Box<dyn std::error::Error>>(())
    /// ```
    #[must_use]
    pub fn with_choices(self, choices: Choices) -> UsageMerger {
        UsageMerger { choices, ..self }
    }

    /// The choices that its calls are made with.
    pub fn choices(&self) -> Choices {
        self.choices
    }

    /// Merges two usages: equal opaque handles stay, two buffers or two memories are merged, and
    /// anything else is the first, with a conflict.
    ///
    /// ```
    /// # use usage_merger::{Conflict, ConflictKind, QPtrUsage, Table, UsageMerger};
    /// let mut merger = UsageMerger::new(&Table::bench())?;
    /// let (a, b): (QPtrUsage, QPtrUsage) = ("Opaque 4".parse()?, "Memory U0".parse()?);
    /// let conflicts = merger.merge(&a, &b)?.into_result().unwrap_err();
    /// assert_eq!(conflicts[0].kind, ConflictKind::Unlike);
    /// # Ok::<(), Box<dyn std::error::Error>>(())
    /// ```
    ///
    /// # Errors
    /// If the library refuses, or a value has no bytes.
    pub fn merge(&mut self, a: &QPtrUsage, b: &QPtrUsage) -> Result<MergeResult<QPtrUsage>, Error> {
        let (a, b) = (a.to_bytes()?, b.to_bytes()?);
        let call = |setting: Setting<'_>, to: Buffers<'_>| calls::merge(setting, &a, &b, to);
        let MergeResult { merged, conflicts, pairings } = self.written(a.len() + b.len(), call)?;
        let merged = QPtrUsage::from_bytes(&merged).map_err(|_| Error::Foreign)?;
        Ok(MergeResult { merged, conflicts, pairings })
    }

    /// Merges two memory usages: the larger or stricter receives the other, at 0. Who does on a tie
    /// is a choice.
    ///
    /// # Errors
    /// If the library refuses, or a value has no bytes. Sound usages are never refused with
    /// [`Refusal::Outgrown`] or [`Refusal::PastBits`].
    pub fn merge_mem(
        &mut self,
        a: &QPtrMemUsage,
        b: &QPtrMemUsage,
    ) -> Result<MergeResult<QPtrMemUsage>, Error> {
        let (a, b) = (a.to_bytes()?, b.to_bytes()?);
        let call = |setting: Setting<'_>, to: Buffers<'_>| calls::merge(setting, &a, &b, to);
        self.written(a.len() + b.len(), call).and_then(memory)
    }

    /// Places `b` into `a` at an offset. `a` must be large enough.
    ///
    /// ```
    /// # use usage_merger::{Error, QPtrMemUsage, Refusal, Table, UsageMerger};
    /// let mut merger = UsageMerger::new(&Table::bench())?;
    /// let (a, b): (QPtrMemUsage, QPtrMemUsage) = ("O16[0:D4,0]".parse()?, "D4,1".parse()?);
    /// let placed = merger.merge_mem_at(&a, 8, &b)?;
    /// assert_eq!(placed.merged.to_string(), "O16[0:D4,0 8:D4,1]");
    /// assert_eq!(merger.merge_mem_at(&a, 13, &b), Err(Error::Refused(Refusal::Outgrown)));
    /// # Ok::<(), Box<dyn std::error::Error>>(())
    /// ```
    ///
    /// # Errors
    /// If the library refuses, or a value has no bytes.
    pub fn merge_mem_at(
        &mut self,
        a: &QPtrMemUsage,
        b_offset_in_a: u32,
        b: &QPtrMemUsage,
    ) -> Result<MergeResult<QPtrMemUsage>, Error> {
        let (a, b) = (a.to_bytes()?, b.to_bytes()?);
        let call = |setting: Setting<'_>, to: Buffers<'_>| {
            calls::place(setting, &a, b_offset_in_a, &b, to)
        };
        self.written(a.len() + b.len(), call).and_then(memory)
    }

    /// Folds usages: the first as it stands, then each next one merged with the usage so far,
    /// conflict or not. Of the two the usage so far is the first.
    ///
    /// ```
    /// # use usage_merger::{QPtrMemUsage, Table, UsageMerger};
    /// let mut merger = UsageMerger::new(&Table::bench())?;
    /// let usages: Vec<QPtrMemUsage> = vec!["O8[0:D4,0]".parse()?, "O8[4:D4,1]".parse()?, "D8,2".parse()?];
    /// let folded = merger.fold(&usages)?;
    /// assert_eq!(folded.merged.to_string(), "D8,2");
    /// # Ok::<(), Box<dyn std::error::Error>>(())
    /// ```
    ///
    /// # Errors
    /// If the library refuses, as it does an empty list ([`Refusal::BadFirst`]), or there are more
    /// usages than a list can count. Sound usages are never refused with [`Refusal::Outgrown`] or
    /// [`Refusal::PastBits`].
    pub fn fold<'u>(
        &mut self,
        usages: impl IntoIterator<Item = &'u QPtrMemUsage>,
    ) -> Result<MergeResult<QPtrMemUsage>, Error> {
        let list = list_to_bytes(usages)?;
        let call = |setting: Setting<'_>, to: Buffers<'_>| calls::fold(setting, &list, to);
        self.written(list.len(), call).and_then(memory)
    }

    /// Whether a type's layout is compatible with a usage at an offset.
    ///
    /// ```
    /// # use usage_merger::{QPtrMemUsage, Table, Type, UsageMerger};
    /// let mut merger = UsageMerger::new(&Table::bench())?;
    /// let second_field: QPtrMemUsage = "D4,1".parse()?;
    /// assert!(merger.supports_usage_at_offset(Type(2), 4, &second_field)?);
    /// assert!(!merger.supports_usage_at_offset(Type(2), 0, &second_field)?);
    /// # Ok::<(), Box<dyn std::error::Error>>(())
    /// ```
    ///
    /// With the strict lookup an array type contains nothing one past its last element, and supports
    /// no access there. It supports the last element, and without a length any:
    ///
    /// ```
    /// # use usage_merger::{Choices, Lookup, QPtrMemUsage, Table, Type, UsageMerger};
    /// let table: Table = "scalar 4; elements 16 (4, 0, 4); elements 16 (4, 0, 0)".parse()?;
    /// let mut lenient = UsageMerger::new(&table)?;
    /// let mut strict = lenient.clone().with_choices(Choices::default().with_lookup(Lookup::Strict));
    /// let (empty, last): (QPtrMemUsage, QPtrMemUsage) = ("D0,0".parse()?, "D4,0".parse()?);
    /// assert!(lenient.supports_usage_at_offset(Type(1), 16, &empty)?);
    /// assert!(!strict.supports_usage_at_offset(Type(1), 16, &empty)?);
    /// assert!(strict.supports_usage_at_offset(Type(1), 12, &last)?);
    /// assert!(strict.supports_usage_at_offset(Type(2), 16, &empty)?);
    /// # Ok::<(), Box<dyn std::error::Error>>(())
    /// ```
    ///
    /// # Errors
    /// If the library refuses, or a value has no bytes.
    pub fn supports_usage_at_offset(
        &mut self,
        ty: Type,
        usage_offset: u32,
        usage: &QPtrMemUsage,
    ) -> Result<bool, Error> {
        let stream = usage.to_bytes()?;
        verdict(calls::supports(self.setting(), ty.0, usage_offset, &stream))
    }

    /// Whether a usage is sound: no empty accesses, no overlapping entries, nothing past its size
    /// or 32 bits, elements as large as their stride.
    ///
    /// ```
    /// # use usage_merger::{QPtrMemUsage, Table, UsageMerger};
    /// let mut merger = UsageMerger::new(&Table::bench())?;
    /// assert!(merger.is_sound(&"O8[0:D4,0 4:D4,0]".parse()?)?);
    /// assert!(!merger.is_sound(&"O8[0:D4,0 2:D4,0]".parse()?)?);
    /// # Ok::<(), Box<dyn std::error::Error>>(())
    /// ```
    ///
    /// # Errors
    /// If the library refuses, or a value has no bytes.
    pub fn is_sound(&mut self, usage: &QPtrMemUsage) -> Result<bool, Error> {
        let stream = usage.to_bytes()?;
        verdict(calls::sound(self.setting(), &stream))
    }

    /// Which of two usages would receive the other, with this merger's choices. The table does not
    /// matter.
    ///
    /// ```
    /// # use usage_merger::{QPtrMemUsage, Receiver, Table, UsageMerger};
    /// let merger = UsageMerger::new(&Table::bench())?;
    /// let (a, b): (QPtrMemUsage, QPtrMemUsage) = ("D8,2".parse()?, "D4,0".parse()?);
    /// assert_eq!(merger.receiver(&a, &b)?, Receiver::First);
    /// assert_eq!(merger.receiver(&a, &a)?, Receiver::Second);
    /// # Ok::<(), Box<dyn std::error::Error>>(())
    /// ```
    ///
    /// # Errors
    /// [`Refusal::TooManyNodes`], or if a value has no bytes.
    pub fn receiver(&self, a: &QPtrMemUsage, b: &QPtrMemUsage) -> Result<Receiver, Error> {
        match calls::receiver(self.choices, &a.to_bytes()?, &b.to_bytes()?) {
            // Bytes of a value are a stream, so this is the only refusal that is left.
            0 => Err(Refusal::TooManyNodes.into()),
            1 => Ok(Receiver::First),
            2 => Ok(Receiver::Second),
            _ => Err(Error::Foreign),
        }
    }

    fn setting(&mut self) -> Setting<'_> {
        Setting { table: &self.table, work: &mut self.work, choices: self.choices }
    }

    /// Asks until the buffers are long enough. The usage is seldom longer than what it is made of: a
    /// node that becomes an entry gets an offset.
    fn written(
        &mut self,
        input: usize,
        call: impl Fn(Setting<'_>, Buffers<'_>) -> Answer,
    ) -> Result<Written, Error> {
        enlarge(&mut self.output, input, LONGEST_OUTPUT);
        loop {
            let (table, work) = (&self.table, &mut self.work);
            let setting = Setting { table, work, choices: self.choices };
            let to = Buffers { output: &mut self.output, report: &mut self.report };
            let answer = call(setting, to);
            let (output, report) = (self.output.len(), self.report.len());
            match refused(answer) {
                Err(Error::Refused(Refusal::OutputShort)) if output < LONGEST_OUTPUT => {
                    enlarge(&mut self.output, output * 2, LONGEST_OUTPUT);
                }
                Err(Error::Refused(Refusal::ReportShort)) if report < LONGEST_REPORT => {
                    enlarge(&mut self.report, report * 2, LONGEST_REPORT);
                }
                Err(error) => return Err(error),
                Ok(()) => return self.taken(answer),
            }
        }
    }

    /// What the answer says is in the buffers.
    fn taken(&self, answer: Answer) -> Result<Written, Error> {
        let merged = front(&self.output, answer.usage_length)?.to_vec();
        let report = front(&self.report, answer.report_length)?;
        let conflicts = Conflict::list_from_bytes(report).map_err(|_| Error::Foreign)?;
        Ok(MergeResult { merged, conflicts, pairings: answer.pairings })
    }
}

/// Makes a buffer at least so long, but no longer than the longest.
fn enlarge(buffer: &mut Vec<u8>, length: usize, longest: usize) {
    let length = length.max(FIRST_REPORT).min(longest);
    if buffer.len() < length {
        buffer.resize(length, 0);
    }
}

/// The refusal, if the answer is one.
fn refused(answer: Answer) -> Result<(), Error> {
    match answer.number {
        0 => Ok(()),
        number => Err(Refusal::of(number).map_or(Error::Foreign, Error::Refused)),
    }
}

fn verdict(answer: Answer) -> Result<bool, Error> {
    refused(answer)?;
    match answer.yes {
        0 => Ok(false),
        1 => Ok(true),
        _ => Err(Error::Foreign),
    }
}

fn front(buffer: &[u8], length: u64) -> Result<&[u8], Error> {
    let length = usize::try_from(length).map_err(|_| Error::Foreign)?;
    buffer.get(..length).ok_or(Error::Foreign)
}

fn memory(written: Written) -> Result<MergeResult<QPtrMemUsage>, Error> {
    let MergeResult { merged, conflicts, pairings } = written;
    let merged = QPtrMemUsage::from_bytes(&merged).map_err(|_| Error::Foreign)?;
    Ok(MergeResult { merged, conflicts, pairings })
}

#[cfg(test)]
mod tests {
    use super::*;
    use crate::choices::{Lookup, Ties};
    use crate::conflict::ConflictKind;
    use crate::error::ValueError;
    use crate::usage::QPtrMemUsageKind;
    use std::num::NonZeroU32;

    fn usage(text: &str) -> QPtrMemUsage {
        text.parse().unwrap()
    }

    fn merger() -> UsageMerger {
        UsageMerger::new(&Table::bench()).unwrap()
    }

    /// A map of so many leaves of 4 bytes, of this type.
    fn leaves(count: u32, ty: u32) -> QPtrMemUsage {
        let leaf = usage(&format!("D4,{ty}"));
        let entries = (0..count).map(|index| (index * 4, leaf.clone())).collect();
        QPtrMemUsage { max_size: Some(count * 4), kind: QPtrMemUsageKind::OffsetBase(entries) }
    }

    #[test]
    fn buffers_grow_as_reports_do() {
        let mut merger = merger();
        let answer = merger.merge_mem(&leaves(255, 0), &leaves(255, 1)).unwrap();
        assert_eq!((answer.merged.nodes(), answer.conflicts.len()), (256, 255));
        assert_eq!(answer.pairings, 1 + 2 * 255);
        assert!(answer.conflicts.iter().all(|conflict| conflict.kind == ConflictKind::Type));
        let report = merger.report.len();
        assert!(report > FIRST_REPORT && report <= LONGEST_REPORT);
        // A short answer after a long one is not mixed with it.
        let answer = merger.merge_mem(&usage("U0"), &usage("U0")).unwrap();
        assert_eq!(answer.merged, QPtrMemUsage::UNUSED);
        assert!(answer.conflicts.is_empty());
    }

    #[test]
    fn the_output_grows_if_it_must() {
        let mut merger = merger();
        merger.output.truncate(0);
        let (a, b) = (leaves(100, 0).to_bytes().unwrap(), leaves(100, 0).to_bytes().unwrap());
        let call = |setting: Setting<'_>, to: Buffers<'_>| calls::merge(setting, &a, &b, to);
        // Told that the inputs are short, it finds out that the output is not.
        let written = merger.written(0, call).unwrap();
        assert_eq!(written.merged, a);
    }

    #[test]
    fn as_many_nodes_as_a_call_takes() {
        let mut merger = merger();
        let half = leaves(255, 0);
        assert!(merger.merge_mem(&half, &half).is_ok());
        let refused = merger.merge_mem(&half, &leaves(256, 0));
        assert_eq!(refused, Err(Error::Refused(Refusal::TooManyNodes)));
        let refused = merger.receiver(&half, &leaves(256, 0));
        assert_eq!(refused, Err(Error::Refused(Refusal::TooManyNodes)));
        let answer = merger.fold(&vec![usage("D4,0"); 512]).unwrap();
        assert_eq!((answer.merged, answer.pairings), (usage("D4,0"), 511));
    }

    #[test]
    fn choices_reach_the_calls() {
        let to_first = Choices::default().with_ties(Ties::First);
        assert_eq!(merger().choices(), Choices::default());
        let mut merger = merger().with_choices(to_first);
        assert_eq!((merger.choices(), merger.clone().choices()), (to_first, to_first));
        let (a, b) = (usage("D4,0"), usage("D4,1"));
        assert_eq!(merger.receiver(&a, &b), Ok(Receiver::First));
        assert_eq!(merger.merge_mem(&a, &b).unwrap().merged, a);
        assert_eq!(merger.fold([&a, &b, &a, &b]).unwrap().merged, a);
        let top = merger.merge(&a.clone().into(), &b.clone().into()).unwrap();
        assert_eq!(top.merged, a.into());
        let array = usage("A8,4,D4,0");
        assert_eq!(merger.merge_mem_at(&array, 4, &b).unwrap().merged, array);
    }

    #[test]
    fn the_lookup_reaches_the_calls() {
        let strict = Choices::default().with_lookup(Lookup::Strict);
        let both = strict.with_ties(Ties::First);
        let (past, array, empty) = (usage("O16[16:D0,0]"), usage("D16,3"), usage("D0,0"));
        for (choices, found) in [(Choices::default(), 0), (strict, 1), (both, 1)] {
            let mut merger = merger().with_choices(choices);
            assert_eq!((merger.choices(), merger.clone().choices()), (choices, choices));
            let supported = merger.supports_usage_at_offset(Type(3), 16, &empty);
            assert_eq!(supported, Ok(found == 0));
            let answers = [
                merger.merge_mem(&past, &array).unwrap(),
                merger.merge_mem_at(&array, 16, &empty).unwrap(),
                merger.fold([&past, &array]).unwrap(),
            ];
            for MergeResult { merged, conflicts, .. } in answers {
                assert_eq!((&merged, conflicts.len()), (&array, found));
            }
            let top = merger.merge(&past.clone().into(), &array.clone().into()).unwrap();
            assert_eq!((top.merged, top.conflicts.len()), (array.clone().into(), found));
        }
    }

    #[test]
    fn deep_values_are_refused() {
        let stride = NonZeroU32::MIN;
        let mut deep = usage("U1");
        for _ in 0..100_000 {
            let element = Box::new(deep);
            deep = QPtrMemUsage {
                max_size: Some(1),
                kind: QPtrMemUsageKind::DynOffsetBase { element, stride },
            };
        }
        let mut merger = merger();
        let many = Error::Refused(Refusal::TooManyNodes);
        assert_eq!(merger.merge_mem(&deep, &QPtrMemUsage::UNUSED), Err(many));
        assert_eq!(merger.merge_mem_at(&deep, 0, &deep), Err(many));
        assert_eq!(merger.fold([&deep]), Err(many));
        assert_eq!(merger.supports_usage_at_offset(Type(0), 0, &deep), Err(many));
        assert_eq!(merger.is_sound(&deep), Err(many));
        assert_eq!(merger.receiver(&deep, &deep), Err(many));
        while let QPtrMemUsageKind::DynOffsetBase { element, .. } = deep.kind {
            deep = *element;
        }
    }

    #[test]
    fn the_deepest_accepted_usage_merges() {
        let mut deep = usage("D4,0");
        for _ in 1..256 {
            let kind = QPtrMemUsageKind::OffsetBase([(0, deep)].into());
            deep = QPtrMemUsage { max_size: Some(4), kind };
        }
        let answer = merger().merge_mem(&deep, &deep.clone()).unwrap();
        assert!(answer.merged.nodes() <= 512 && answer.conflicts.is_empty());
    }

    #[test]
    fn answers_that_are_none_are_told() {
        let answer = Answer { number: 0, yes: 2, usage_length: 3, report_length: 0, pairings: 0 };
        assert_eq!(verdict(answer), Err(Error::Foreign));
        assert_eq!(refused(Answer { number: 12, ..answer }), Err(Error::Foreign));
        let mut merger = merger();
        let call = |_: Setting<'_>, _: Buffers<'_>| Answer { usage_length: 1 << 40, ..answer };
        assert_eq!(merger.written(0, call), Err(Error::Foreign));
        let call = |_: Setting<'_>, _: Buffers<'_>| Answer { usage_length: 3, ..answer };
        assert_eq!(merger.written(0, call).and_then(memory), Err(Error::Foreign));
        // One that never has room is asked a few times, and then believed.
        let call = |_: Setting<'_>, _: Buffers<'_>| Answer { number: 11, ..answer };
        assert_eq!(merger.written(0, call), Err(Error::Refused(Refusal::ReportShort)));
        assert_eq!(merger.report.len(), LONGEST_REPORT);
    }

    #[test]
    fn refusals_reach_the_caller() {
        let mut merger = merger();
        let (leaf, unused) = (usage("D4,0"), QPtrMemUsage::UNUSED);
        let refused = |refusal| Err(Error::Refused(refusal));
        assert_eq!(merger.fold([]), refused(Refusal::BadFirst));
        assert_eq!(merger.merge_mem(&usage("D4,9"), &leaf), refused(Refusal::UnknownType));
        assert_eq!(
            merger.supports_usage_at_offset(Type(4), 0, &unused).map(drop),
            Err(Error::Refused(Refusal::NotConcrete))
        );
        assert_eq!(merger.merge_mem_at(&leaf, 1, &leaf), refused(Refusal::Outgrown));
        assert_eq!(merger.merge_mem_at(&leaf, u32::MAX, &leaf), refused(Refusal::PastBits));
        let long = merger.fold(std::iter::repeat(&unused));
        assert_eq!(long, Err(Error::Value(ValueError::Nodes(65_536))));
        let records = UsageMerger::new(&Table { records: vec![crate::TypeLayout::Handle; 1_025] });
        assert_eq!(records.map(drop), Err(Error::Refused(Refusal::BadTable)));
    }
}
