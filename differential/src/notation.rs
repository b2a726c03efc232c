//! Document 01's notation: `O8[0:D4,0]`, and a like one for tables, both ways.
//!
//! U size; D size,type; S size,type (StrictlyTyped); O size[offset:node ..]; A size,stride,node; `*`
//! is dynamic. Tops are `Opaque 3`, `Buffer U0`, `Memory U0`; a list is `List(U0 | D4,0)`. A table is
//! `scalar 4; elements 16 (4, 0, 4); fields 8 {0:0 4:1}; handle; failed`, the operands of elements
//! being stride, type and length, and `scalar 4+8` having the dynamic stride 8. A call's choices stand
//! behind its name where they are not the default.

use crate::reading::faults::Faults;
use crate::reading::report;
use crate::reading::streams::{read_list, read_memory, read_top};
use crate::reading::tables::read_table;
use crate::side::{Answer, Buffer, Call, CallKind, Choices, Lookup, Ties};
use crate::usage::{Components, Entry, Field, Kind, Layout, Record, Size, Table, Top, Usage};
use std::fmt::{self, Display, Formatter, Write};

impl Display for Size {
    fn fmt(&self, f: &mut Formatter<'_>) -> fmt::Result {
        match self {
            Size::Fixed(size) => write!(f, "{size}"),
            Size::Dynamic => f.write_char('*'),
        }
    }
}

impl Display for Usage {
    fn fmt(&self, f: &mut Formatter<'_>) -> fmt::Result {
        let size = self.size;
        match &self.kind {
            Kind::Unused => write!(f, "U{size}"),
            Kind::Leaf { strict: true, ty } => write!(f, "S{size},{ty}"),
            Kind::Leaf { strict: false, ty } => write!(f, "D{size},{ty}"),
            Kind::Map(entries) => {
                let entry = |entry: &Entry| format!("{}:{}", entry.offset, entry.node);
                let entries: Vec<String> = entries.iter().map(entry).collect();
                write!(f, "O{size}[{}]", entries.join(" "))
            }
            Kind::Array { stride, element } => write!(f, "A{size},{stride},{element}"),
        }
    }
}

impl Display for Top {
    fn fmt(&self, f: &mut Formatter<'_>) -> fmt::Result {
        match self {
            Top::Opaque(ty) => write!(f, "Opaque {ty}"),
            Top::Buffer(node) => write!(f, "Buffer {node}"),
            Top::Memory(node) => write!(f, "Memory {node}"),
        }
    }
}

impl Display for Record {
    fn fmt(&self, f: &mut Formatter<'_>) -> fmt::Result {
        let layout = match self {
            Record::Handle => return f.write_str("handle"),
            Record::Failed => return f.write_str("failed"),
            Record::Concrete(layout) => layout,
        };
        let size = match layout.dynamic_stride {
            0 => layout.size.to_string(),
            stride => format!("{}+{stride}", layout.size),
        };
        match &layout.components {
            Components::Scalar => write!(f, "scalar {size}"),
            Components::Elements { stride, ty, length } => {
                write!(f, "elements {size} ({stride}, {ty}, {length})")
            }
            Components::Fields(fields) => {
                let field = |field: &Field| format!("{}:{}", field.offset, field.ty);
                let fields: Vec<String> = fields.iter().map(field).collect();
                write!(f, "fields {size} {{{}}}", fields.join(" "))
            }
        }
    }
}

impl Display for Table {
    fn fmt(&self, f: &mut Formatter<'_>) -> fmt::Result {
        let records: Vec<String> = self.records.iter().map(Record::to_string).collect();
        f.write_str(&records.join("; "))
    }
}

impl Display for Call {
    fn fmt(&self, f: &mut Formatter<'_>) -> fmt::Result {
        let kind = self.kind;
        write!(f, "{kind}")?;
        match kind {
            CallKind::Supports => write!(f, " of type {} at {}", self.ty, self.offset)?,
            CallKind::Place => write!(f, " at {}", self.offset)?,
            _ => {}
        }
        not_default(self.choices).iter().try_for_each(|words| write!(f, ", {words}"))?;
        if kind != CallKind::Receiver {
            let table = read_table(&self.table, Faults::NONE);
            write!(f, "\n  table   {}", or_hex(table, &self.table))?;
        }
        let memory = |bytes| or_hex(read_memory(bytes, Faults::NONE), bytes);
        let top = |bytes| or_hex(read_top(bytes, Faults::NONE), bytes);
        let first = match kind {
            CallKind::Fold => list_or_hex(&self.first),
            CallKind::Merge => top(&self.first),
            _ => memory(&self.first),
        };
        write!(f, "\n  first   {first}")?;
        if kind.takes_second() {
            let second =
                if kind == CallKind::Merge { top(&self.second) } else { memory(&self.second) };
            write!(f, "\n  second  {second}")?;
        }
        if kind != CallKind::Receiver {
            write!(f, "\n  lengths work area {}", self.work)?;
        }
        if kind.writes() {
            let (output, report) = (self.output, self.report);
            write!(f, ", output {} of {:02x}", output.length, output.fill)?;
            write!(f, ", report {} of {:02x}", report.length, report.fill)?;
        }
        Ok(())
    }
}

/// The choices that are not the default, in words.
fn not_default(choices: Choices) -> Vec<&'static str> {
    let ties = (choices.ties == Ties::First).then_some("ties to the first");
    let lookup = (choices.lookup == Lookup::Strict).then_some("strict lookup");
    [ties, lookup].into_iter().flatten().collect()
}

impl Display for Answer {
    fn fmt(&self, f: &mut Formatter<'_>) -> fmt::Result {
        write!(f, "number {}, yes {}, pairings {}", self.number, self.yes, self.pairings)?;
        if self.output.is_empty() && self.report.is_empty() {
            return Ok(());
        }
        write!(f, ", lengths {} and {}", self.usage_length, self.report_length)?;
        if self.usage_length > 0 {
            let usage = or_hex(read_top(self.usage(), Faults::NONE), self.usage());
            write!(f, "\n    usage   {usage}\n    report  {}", report_words(self.conflicts()))?;
        }
        write!(f, "\n    output  {}\n    buffer  {}", hex_run(&self.output), hex_run(&self.report))
    }
}

/// More than anybody reads.
const LONGEST_SHOWN: usize = 10_000;

fn or_hex<T: Display>(value: Option<T>, bytes: &[u8]) -> String {
    match value {
        _ if bytes.len() > LONGEST_SHOWN => format!("{} bytes", bytes.len()),
        Some(value) => value.to_string(),
        None => format!("bytes {}", hex(bytes)),
    }
}

fn list_or_hex(bytes: &[u8]) -> String {
    let list = read_list(bytes, Faults::NONE).map(|nodes| {
        let nodes: Vec<String> = nodes.iter().map(Usage::to_string).collect();
        format!("List({})", nodes.join(" | "))
    });
    or_hex(list, bytes)
}

/// Lowercase hex, `-` if empty.
pub fn hex(bytes: &[u8]) -> String {
    if bytes.is_empty() {
        return "-".into();
    }
    bytes.iter().map(|byte| format!("{byte:02x}")).collect()
}

/// Hex in which the last byte stands once, with the number of times that it occurs at the end.
fn hex_run(bytes: &[u8]) -> String {
    if bytes.is_empty() {
        return hex(bytes);
    }
    let (front, last) = with_last_run(bytes);
    let front: String = front.iter().map(|byte| format!("{byte:02x}")).collect();
    format!("{front} {:02x} x {}", last.fill, last.length)
}

/// Bytes as a front and the longest run of one byte that they end with.
pub fn with_last_run(bytes: &[u8]) -> (&[u8], Buffer) {
    let Some(&fill) = bytes.last() else { return (bytes, Buffer::NONE) };
    let length = bytes.iter().rev().take_while(|byte| **byte == fill).count();
    (&bytes[..bytes.len() - length], Buffer { length, fill })
}

/// The commands of a report with their operands, as far as they can be read.
pub fn report_commands(mut bytes: &[u8]) -> Vec<(u8, Vec<u32>)> {
    let mut commands = Vec::new();
    while let Some((&command, mut rest)) = bytes.split_first() {
        let mut operands = Vec::new();
        for width in operand_widths(command) {
            let Some((operand, after)) = rest.split_at_checked(*width) else { return commands };
            operands.push(operand.iter().rev().fold(0, |sum, byte| sum << 8 | u32::from(*byte)));
            rest = after;
        }
        commands.push((command, operands));
        bytes = rest;
    }
    commands
}

fn operand_widths(command: u8) -> &'static [usize] {
    match command {
        report::AT_OFFSET | report::FAILED | report::STRIDE => &[4],
        report::STRADDLE => &[4, 4],
        report::AT_NODE => &[2],
        _ => &[],
    }
}

/// A report as document 01 writes it: `30, 31 0, 36 2 0`.
pub fn report_words(bytes: &[u8]) -> String {
    let word = |(command, operands): (u8, Vec<u32>)| {
        let operands: String = operands.iter().map(|operand| format!(" {operand}")).collect();
        format!("{command:02x}{operands}")
    };
    let words: Vec<String> = report_commands(bytes).into_iter().map(word).collect();
    words.join(", ")
}

/// Reads a usage.
///
/// # Panics
/// If it is not written in the notation: rows are part of the program.
pub fn usage(text: &str) -> Usage {
    all(text, Text::usage)
}

/// Reads a top; a bare usage is a Memory. Panics as [`usage`] does.
pub fn top(text: &str) -> Top {
    all(text, Text::top)
}

/// Reads a table. Panics as [`usage`] does.
pub fn table(text: &str) -> Table {
    all(text, Text::table)
}

fn all<'a, T>(text: &'a str, read: impl FnOnce(&mut Text<'a>) -> Option<T>) -> T {
    let mut rest = Text(text);
    let value = read(&mut rest);
    match value {
        Some(value) if rest.0.trim().is_empty() => value,
        _ => panic!("`{text}` is not in the notation, from `{}` on", rest.0),
    }
}

/// What is left of a text. Spaces count for nothing.
struct Text<'a>(&'a str);

impl Text<'_> {
    fn eat(&mut self, word: &str) -> bool {
        match self.0.trim_start().strip_prefix(word) {
            Some(rest) => {
                self.0 = rest;
                true
            }
            None => false,
        }
    }

    fn need(&mut self, word: &str) -> Option<()> {
        self.eat(word).then_some(())
    }

    fn number(&mut self) -> Option<u32> {
        let text = self.0.trim_start();
        let end = text.find(|c: char| !c.is_ascii_digit()).unwrap_or(text.len());
        let (digits, rest) = text.split_at(end);
        self.0 = rest;
        digits.parse().ok()
    }

    fn size(&mut self) -> Option<Size> {
        if self.eat("*") { Some(Size::Dynamic) } else { self.number().map(Size::Fixed) }
    }

    fn after_comma(&mut self) -> Option<u32> {
        self.need(",")?;
        self.number()
    }

    fn usage(&mut self) -> Option<Usage> {
        let letter = "UDSOA".chars().find(|letter| self.eat(&letter.to_string()))?;
        let size = self.size()?;
        let kind = match letter {
            'U' => Kind::Unused,
            'O' => Kind::Map(self.list("[", "]", Text::entry)?),
            'A' => {
                let stride = self.after_comma()?;
                self.need(",")?;
                Kind::Array { stride, element: Box::new(self.usage()?) }
            }
            letter => Kind::Leaf { strict: letter == 'S', ty: self.after_comma()? },
        };
        Some(Usage { size, kind })
    }

    /// What stands between brackets.
    fn list<T>(
        &mut self,
        start: &str,
        end: &str,
        item: impl Fn(&mut Self) -> Option<T>,
    ) -> Option<Vec<T>> {
        self.need(start)?;
        let mut items = Vec::new();
        while !self.eat(end) {
            items.push(item(self)?);
        }
        Some(items)
    }

    /// An offset and a colon.
    fn offset(&mut self) -> Option<u32> {
        let offset = self.number()?;
        self.need(":")?;
        Some(offset)
    }

    fn entry(&mut self) -> Option<Entry> {
        Some(Entry { offset: self.offset()?, node: self.usage()? })
    }

    fn field(&mut self) -> Option<Field> {
        Some(Field { offset: self.offset()?, ty: self.number()? })
    }

    fn top(&mut self) -> Option<Top> {
        if self.eat("Opaque") {
            return self.number().map(Top::Opaque);
        }
        if self.eat("Buffer") {
            return self.usage().map(Top::Buffer);
        }
        self.eat("Memory");
        self.usage().map(Top::Memory)
    }

    fn table(&mut self) -> Option<Table> {
        let mut table = Table::default();
        while !self.0.trim().is_empty() {
            table.records.push(self.record()?);
            self.eat(";");
        }
        Some(table)
    }

    fn record(&mut self) -> Option<Record> {
        if self.eat("handle") {
            return Some(Record::Handle);
        }
        if self.eat("failed") {
            return Some(Record::Failed);
        }
        let word = ["scalar", "elements", "fields"].into_iter().find(|word| self.eat(word))?;
        let size = self.number()?;
        let dynamic_stride = if self.eat("+") { self.number()? } else { 0 };
        let components = match word {
            "scalar" => Components::Scalar,
            "elements" => self.elements()?,
            _ => Components::Fields(self.list("{", "}", Text::field)?),
        };
        Some(Record::Concrete(Layout { size, dynamic_stride, components }))
    }

    fn elements(&mut self) -> Option<Components> {
        self.need("(")?;
        let stride = self.number()?;
        let (ty, length) = (self.after_comma()?, self.after_comma()?);
        self.need(")")?;
        Some(Components::Elements { stride, ty, length })
    }
}
