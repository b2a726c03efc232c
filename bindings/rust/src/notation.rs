//! Document 01's notation for usages, and a like one for tables, both ways.
//!
//! | usage | stands for |
//! |---|---|
//! | `U8` | Unused of 8 bytes |
//! | `D4,0` | `DirectAccess` of 4 bytes, type 0 |
//! | `S4,0` | `StrictlyTyped` of 4 bytes, type 0 |
//! | `O8[0:D4,0 4:D4,1]` | `OffsetBase` of 8 bytes with two entries |
//! | `A16,4,D4,0` | `DynOffsetBase` of 16 bytes, stride 4, with its element |
//! | `U*` | any of these with `*`: of dynamic size |
//! | `Opaque 3`, `Buffer U8`, `Memory U8` | a [`QPtrUsage`]; a bare usage is a Memory |
//!
//! A table is `scalar 4; elements 16 (4, 0, 4); fields 8 {0:0 4:1}; handle; failed`. The numbers of
//! elements are stride, type and length (0 for none); those of fields are offset and type; `scalar
//! 4+8` has the dynamic stride 8. Spaces count for nothing.

use crate::calls::MOST_NODES;
use crate::shapes::Handle;
use crate::table::{Components, Field, MemTypeLayout, Table, TypeLayout};
use crate::usage::{QPtrMemUsage, QPtrMemUsageKind, QPtrUsage, Type};
use std::collections::BTreeMap;
use std::error;
use std::fmt::{self, Display, Formatter};
use std::num::NonZeroU32;
use std::str::FromStr;

/// Why a text is not in the notation, and where.
///
/// ```
/// let text = "O8[0:D4 0]";
/// let error = text.parse::<usage_merger::QPtrMemUsage>().unwrap_err();
/// assert_eq!(error.to_string(), "expected `,` at character 9");
/// assert_eq!(error.pointing_into(text), "O8[0:D4 0]\n        ^");
/// ```
#[derive(Clone, Debug, PartialEq, Eq, Hash)]
pub struct NotationError {
    position: usize,
    column: usize,
    expected: String,
}

/// How much of a long text is shown on each side of a fault.
const SHOWN: usize = 48;

impl NotationError {
    /// The byte of the text at which it stops being in the notation; its length if it ends too
    /// early.
    pub fn position(&self) -> usize {
        self.position
    }

    /// What should stand there.
    pub fn expected(&self) -> &str {
        &self.expected
    }

    /// The text, or the part of a long one around the fault, and in the next line a caret under it.
    pub fn pointing_into(&self, text: &str) -> String {
        let first = self.column.saturating_sub(SHOWN);
        let printable = |c: char| if c.is_control() { ' ' } else { c };
        let mut shown: String = text.chars().map(printable).skip(first).take(2 * SHOWN).collect();
        let mut before = self.column - first;
        if first > 0 {
            shown.insert_str(0, "...");
            before += 3;
        }
        if text.chars().nth(first.saturating_add(2 * SHOWN)).is_some() {
            shown.push_str("...");
        }
        format!("{shown}\n{}^", " ".repeat(before))
    }
}

impl Display for NotationError {
    fn fmt(&self, f: &mut Formatter<'_>) -> fmt::Result {
        write!(f, "expected {} at character {}", self.expected, self.column.saturating_add(1))
    }
}

impl error::Error for NotationError {}

impl FromStr for QPtrMemUsage {
    type Err = NotationError;

    fn from_str(text: &str) -> Result<QPtrMemUsage, NotationError> {
        all(text, Text::usage)
    }
}

impl FromStr for QPtrUsage {
    type Err = NotationError;

    fn from_str(text: &str) -> Result<QPtrUsage, NotationError> {
        all(text, Text::top)
    }
}

impl FromStr for Table {
    type Err = NotationError;

    fn from_str(text: &str) -> Result<Table, NotationError> {
        all(text, Text::table)
    }
}

fn all<'a, T>(
    text: &'a str,
    read: impl FnOnce(&mut Text<'a>) -> Result<T, NotationError>,
) -> Result<T, NotationError> {
    let mut rest = Text { whole: text, rest: text };
    let value = read(&mut rest)?;
    rest.skip_spaces();
    if rest.rest.is_empty() { Ok(value) } else { Err(rest.expected("the end")) }
}

/// A map or an array that is being read; a map with the offset of the entry that is next.
enum Open {
    Map { size: Option<u32>, entries: BTreeMap<u32, QPtrMemUsage>, offset: u32 },
    Array { size: Option<u32>, stride: NonZeroU32 },
}

/// A text and what is left of it.
struct Text<'a> {
    whole: &'a str,
    rest: &'a str,
}

impl Text<'_> {
    fn skip_spaces(&mut self) {
        self.rest = self.rest.trim_start();
    }

    /// What should stand here, and does not.
    fn expected(&mut self, what: impl Into<String>) -> NotationError {
        self.skip_spaces();
        let position = self.whole.len().saturating_sub(self.rest.len());
        let before = self.whole.get(..position).unwrap_or_default();
        NotationError { position, column: before.chars().count(), expected: what.into() }
    }

    fn eat(&mut self, word: &str) -> bool {
        self.skip_spaces();
        let Some(rest) = self.rest.strip_prefix(word) else { return false };
        self.rest = rest;
        true
    }

    fn need(&mut self, word: &str) -> Result<(), NotationError> {
        if self.eat(word) { Ok(()) } else { Err(self.expected(format!("`{word}`"))) }
    }

    /// A number, or what else should be there.
    fn number_or(&mut self, what: &str) -> Result<u32, NotationError> {
        self.skip_spaces();
        let end = self.rest.find(|c: char| !c.is_ascii_digit()).unwrap_or(self.rest.len());
        let (digits, rest) = self.rest.split_at(end);
        if digits.is_empty() {
            return Err(self.expected(what));
        }
        let Ok(number) = digits.parse() else {
            return Err(self.expected("a number of at most 4294967295"));
        };
        self.rest = rest;
        Ok(number)
    }

    fn number_after(&mut self, word: &str, what: &str) -> Result<u32, NotationError> {
        self.need(word)?;
        self.number_or(what)
    }

    fn stride(&mut self) -> Result<NonZeroU32, NotationError> {
        self.skip_spaces();
        let here = self.rest;
        let number = self.number_or("a stride")?;
        NonZeroU32::new(number).ok_or_else(|| {
            self.rest = here;
            self.expected("a stride that is not 0")
        })
    }

    fn size(&mut self) -> Result<Option<u32>, NotationError> {
        if self.eat("*") {
            return Ok(None);
        }
        self.number_or("a size, or `*` for a dynamic one").map(Some)
    }

    /// A usage. What is open stands in a list, so that depth costs no stack.
    fn usage(&mut self) -> Result<QPtrMemUsage, NotationError> {
        let mut open = Vec::new();
        loop {
            if open.len() >= MOST_NODES {
                return Err(self.expected("at most 512 levels"));
            }
            let Some(usage) = self.head(&mut open)? else { continue };
            if let Some(root) = self.close(&mut open, usage)? {
                return Ok(root);
            }
        }
    }

    /// A node if nothing follows in it, else it is opened.
    fn head(&mut self, open: &mut Vec<Open>) -> Result<Option<QPtrMemUsage>, NotationError> {
        let Some(letter) = "UDSOA".chars().find(|letter| self.eat(letter.encode_utf8(&mut [0; 4])))
        else {
            return Err(self.expected("a usage (U, D, S, O or A)"));
        };
        let size = self.size()?;
        let kind = match letter {
            'D' => QPtrMemUsageKind::DirectAccess(Type(self.number_after(",", "a type number")?)),
            'S' => QPtrMemUsageKind::StrictlyTyped(Type(self.number_after(",", "a type number")?)),
            'O' => {
                self.need("[")?;
                let Some(offset) = self.offset(None)? else {
                    let kind = QPtrMemUsageKind::OffsetBase(BTreeMap::new());
                    return Ok(Some(QPtrMemUsage { max_size: size, kind }));
                };
                open.push(Open::Map { size, entries: BTreeMap::new(), offset });
                return Ok(None);
            }
            'A' => {
                self.need(",")?;
                let stride = self.stride()?;
                self.need(",")?;
                open.push(Open::Array { size, stride });
                return Ok(None);
            }
            _ => QPtrMemUsageKind::Unused,
        };
        Ok(Some(QPtrMemUsage { max_size: size, kind }))
    }

    /// Puts a node that is whole into what is open around it, as far as that becomes whole, too.
    /// Gives back the root when nothing is open any more.
    fn close(
        &mut self,
        open: &mut Vec<Open>,
        mut usage: QPtrMemUsage,
    ) -> Result<Option<QPtrMemUsage>, NotationError> {
        while let Some(around) = open.pop() {
            let (max_size, kind) = match around {
                Open::Array { size, stride } => {
                    (size, QPtrMemUsageKind::DynOffsetBase { element: Box::new(usage), stride })
                }
                Open::Map { size, mut entries, offset: last } => {
                    entries.insert(last, usage);
                    if let Some(offset) = self.offset(Some(last))? {
                        open.push(Open::Map { size, entries, offset });
                        return Ok(None);
                    }
                    (size, QPtrMemUsageKind::OffsetBase(entries))
                }
            };
            usage = QPtrMemUsage { max_size, kind };
        }
        Ok(Some(usage))
    }

    /// The next entry's offset, which is above the last one; `None` at the end of the map.
    fn offset(&mut self, last: Option<u32>) -> Result<Option<u32>, NotationError> {
        if self.eat("]") {
            return Ok(None);
        }
        let here = self.rest;
        let offset = self.number_or("an entry's offset, or `]`")?;
        if let Some(last) = last.filter(|last| *last >= offset) {
            self.rest = here;
            return Err(self.expected(format!("an offset above {last}")));
        }
        self.need(":")?;
        Ok(Some(offset))
    }

    fn top(&mut self) -> Result<QPtrUsage, NotationError> {
        if self.eat("Opaque") {
            let ty = Type(self.number_or("a type number")?);
            return Ok(QPtrUsage::Handles(Handle::Opaque(ty)));
        }
        if self.eat("Buffer") {
            return Ok(QPtrUsage::Handles(Handle::Buffer(self.usage()?)));
        }
        self.eat("Memory");
        self.usage().map(QPtrUsage::Memory)
    }

    fn table(&mut self) -> Result<Table, NotationError> {
        let mut table = Table::default();
        self.skip_spaces();
        while !self.rest.is_empty() {
            table.records.push(self.record()?);
            if !self.eat(";") && !self.rest.is_empty() {
                return Err(self.expected("`;` or the end"));
            }
            self.skip_spaces();
        }
        Ok(table)
    }

    fn record(&mut self) -> Result<TypeLayout, NotationError> {
        if self.eat("handle") {
            return Ok(TypeLayout::Handle);
        }
        if self.eat("failed") {
            return Ok(TypeLayout::Failed);
        }
        let Some(word) = ["scalar", "elements", "fields"].into_iter().find(|word| self.eat(word))
        else {
            return Err(self.expected("`scalar`, `elements`, `fields`, `handle` or `failed`"));
        };
        let size = self.number_or("a size")?;
        let dyn_unit_stride =
            if self.eat("+") { NonZeroU32::new(self.number_or("a dynamic stride")?) } else { None };
        let components = match word {
            "scalar" => Components::Scalar,
            "elements" => self.elements()?,
            _ => Components::Fields(self.fields()?),
        };
        Ok(TypeLayout::Concrete(MemTypeLayout { size, dyn_unit_stride, components }))
    }

    fn elements(&mut self) -> Result<Components, NotationError> {
        self.need("(")?;
        let stride = self.stride()?;
        let elem = Type(self.number_after(",", "a type number")?);
        let fixed_len = NonZeroU32::new(self.number_after(",", "a length, or 0 for none")?);
        self.need(")")?;
        Ok(Components::Elements { stride, elem, fixed_len })
    }

    fn fields(&mut self) -> Result<Vec<Field>, NotationError> {
        self.need("{")?;
        let mut fields = Vec::new();
        while !self.eat("}") {
            let offset = self.number_or("a field's offset, or `}`")?;
            fields.push(Field { offset, ty: Type(self.number_after(":", "a type number")?) });
        }
        Ok(fields)
    }
}

#[cfg(test)]
mod tests {
    use super::*;

    fn same(text: &str) {
        assert_eq!(text.parse::<QPtrMemUsage>().unwrap().to_string(), text);
    }

    #[test]
    fn usages_read_as_they_are_written() {
        let texts = [
            "U0",
            "U*",
            "D4,0",
            "S4294967295,4294967295",
            "O0[]",
            "O8[0:D4,0 4:D4,1]",
            "A16,4,D4,0",
            "O*[0:O4[] 4:A8,2,O2[1:U1] 12:U*]",
            "A*,1,A*,1,O*[7:A1,1,U1]",
        ];
        texts.into_iter().for_each(same);
        let spaced: QPtrMemUsage = " O 8 [ 0 : D 4 , 0\t4:D4,1 ] ".parse().unwrap();
        assert_eq!(spaced.to_string(), "O8[0:D4,0 4:D4,1]");
    }

    #[test]
    fn tops_and_tables_read_as_they_are_written() {
        for text in ["Opaque 3", "Buffer O8[0:D4,0]", "Memory U0"] {
            assert_eq!(text.parse::<QPtrUsage>().unwrap().to_string(), text);
        }
        assert_eq!("U0".parse::<QPtrUsage>().unwrap().to_string(), "Memory U0");
        let table = "scalar 4; elements 16 (4, 0, 4); fields 8+4 {0:0 4:1}; handle; failed";
        assert_eq!(table.parse::<Table>().unwrap().to_string(), table);
        assert_eq!(" ".parse::<Table>(), Ok(Table::default()));
        assert_eq!("handle;".parse::<Table>().unwrap().records.len(), 1);
    }

    fn fault(text: &str) -> (usize, String) {
        let error = text.parse::<QPtrUsage>().unwrap_err();
        (error.position(), error.expected().into())
    }

    #[test]
    fn faults_are_found_where_they_are() {
        assert_eq!(fault(""), (0, "a usage (U, D, S, O or A)".into()));
        assert_eq!(fault("X4"), (0, "a usage (U, D, S, O or A)".into()));
        assert_eq!(fault("U"), (1, "a size, or `*` for a dynamic one".into()));
        assert_eq!(fault("U-1"), (1, "a size, or `*` for a dynamic one".into()));
        assert_eq!(fault("D4"), (2, "`,`".into()));
        assert_eq!(fault("D4,"), (3, "a type number".into()));
        assert_eq!(fault("U4 U4"), (3, "the end".into()));
        assert_eq!(fault("U4294967296"), (1, "a number of at most 4294967295".into()));
        assert_eq!(fault("A8,0,U4"), (3, "a stride that is not 0".into()));
        assert_eq!(fault("O8[4:U1 4:U1]"), (8, "an offset above 4".into()));
        assert_eq!(fault("O8[4:U1"), (7, "an entry's offset, or `]`".into()));
        assert_eq!(fault("O8[4 U1]"), (5, "`:`".into()));
        assert_eq!(fault("Opaque"), (6, "a type number".into()));
        let table = "scalar 4, scalar 4".parse::<Table>().unwrap_err();
        assert_eq!((table.position(), table.expected()), (8, "`;` or the end"));
        let record = "scalar 4; nothing".parse::<Table>().unwrap_err();
        assert_eq!(record.position(), 10);
    }

    #[test]
    fn the_caret_stands_under_the_fault() {
        let shown = |text: &str| text.parse::<QPtrUsage>().unwrap_err().pointing_into(text);
        assert_eq!(shown("U"), "U\n ^");
        assert_eq!(shown("\u{e9}"), "\u{e9}\n^");
        assert_eq!(shown("U4 \u{e9}\u{e9} x"), "U4 \u{e9}\u{e9} x\n   ^");
        let long = format!("O999[{}x]", "1".repeat(200));
        let lines = shown(&long);
        let (text, caret) = lines.split_once('\n').unwrap();
        assert_eq!(text.chars().nth(caret.len() - 1), Some('1'), "{lines}");
        let entries: Vec<String> = (10..60).map(|offset| format!("{offset}:U1")).collect();
        let far = format!("O999[{} 5:U0]", entries.join(" "));
        let lines = shown(&far);
        let (text, caret) = lines.split_once('\n').unwrap();
        assert!(text.starts_with("...") && caret.len() < 60, "{lines}");
        assert_eq!(text.chars().nth(caret.len() - 1), Some('5'), "{lines}");
        // An error shown with another text than its own still shows something.
        let error = "U4 U4".parse::<QPtrUsage>().unwrap_err();
        assert_eq!(error.pointing_into(""), "\n   ^");
    }

    #[test]
    fn nesting_has_a_limit() {
        let nested = |levels: usize| format!("{}U1", "A1,1,".repeat(levels - 1));
        assert!(nested(512).parse::<QPtrMemUsage>().is_ok());
        let error = nested(513).parse::<QPtrMemUsage>().unwrap_err();
        assert_eq!(error.expected(), "at most 512 levels");
        assert!("O1[0:".repeat(100_000).parse::<QPtrMemUsage>().is_err());
    }
}
