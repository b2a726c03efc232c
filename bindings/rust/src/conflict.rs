//! Conflicts as values, read from a report's bytes.

use crate::bytes::Reader;
use crate::calls::MOST_NODES;
use crate::error::{ByteFault, BytesError};
use crate::usage::Type;
use std::fmt::{self, Display, Formatter};

const CONFLICTS: u8 = 0x30;
const AT_OFFSET: u8 = 0x31;
const TYPE: u8 = 0x32;
const HANDLE: u8 = 0x33;
const FAILED: u8 = 0x34;
const STRIDE: u8 = 0x35;
const STRADDLE: u8 = 0x36;
const UNLIKE: u8 = 0x37;
const AT_NODE: u8 = 0x38;

/// A conflict met while merging, and what led to it.
///
/// The offsets are those of map entries, each in the map that was being worked on: of the usage
/// placed, where its entries are placed one by one, and of the receiving usage, where what overlaps
/// is joined. They are a path, not a sum, and a step into an array's element leaves no trace in it.
///
/// A report says where a group of conflicts begins and not where it ends. Where an entry may belong
/// to one of several groups, `offsets` begins with that entry, and `perhaps_within` has what may
/// lead to it.
///
/// ```
/// use usage_merger::{Conflict, ConflictKind};
/// let report = [0x30, 0x31, 0, 0, 0, 0, 0x36, 2, 0, 0, 0, 0, 0, 0, 0];
/// let conflicts = Conflict::list_from_bytes(&report)?;
/// assert_eq!(conflicts[0].offsets, [0]);
/// assert_eq!(conflicts[0].kind, ConflictKind::Straddle { entry: 2, usage: 0 });
/// let words = "entry at 0: the entry at 2 and the usage at 0 straddle; neither is kept";
/// assert_eq!(conflicts[0].to_string(), words);
/// # Ok::<(), usage_merger::BytesError>(())
/// ```
#[derive(Clone, Debug, PartialEq, Eq, Hash)]
pub struct Conflict {
    /// Of a fold: which of the usages was being merged in, counted from 0.
    pub node: Option<u16>,
    /// Offsets that may lead to it as well, before all of `offsets`: none, some or all of these, in
    /// this order. Empty if the report says exactly what led to it.
    pub perhaps_within: Vec<u32>,
    /// The offsets that lead to it, outermost first.
    pub offsets: Vec<u32>,
    /// What the conflict is.
    pub kind: ConflictKind,
}

/// What a conflict is.
#[derive(Clone, Copy, Debug, PartialEq, Eq, Hash)]
pub enum ConflictKind {
    /// 32: neither type supports the other usage. The receiver's is kept.
    Type,
    /// 33: a handle type was asked. It is kept.
    Handle,
    /// 34: this type was asked, and its layout failed. It is kept.
    Failed(Type),
    /// 35: the usage does not go into one element of the array, which has this stride and stays.
    Stride(u32),
    /// 36: two usages overlap and neither holds the other. The entry, the usage and all that was
    /// joined with it before are gone.
    Straddle {
        /// The entry's offset.
        entry: u32,
        /// The other usage's offset, as it then was.
        usage: u32,
    },
    /// 37: one is a handle and the other memory, or they are unlike handles. The first is kept.
    Unlike,
}

impl Conflict {
    /// Reads a report.
    ///
    /// # Errors
    /// If the bytes are not a report, or nest deeper than 512 levels.
    pub fn list_from_bytes(report: &[u8]) -> Result<Vec<Conflict>, BytesError> {
        let mut bytes = Reader::of(report);
        let mut place = Place::default();
        let mut conflicts = Vec::new();
        while !bytes.is_empty() {
            place.next(&mut bytes)?;
            let kind = place.descend(&mut bytes)?;
            conflicts.push(place.conflict(kind));
            if kind == ConflictKind::Unlike {
                break;
            }
        }
        bytes.whole(conflicts)
    }
}

/// Where in a report the reading is.
#[derive(Default)]
struct Place {
    begun: bool,
    node: Option<u16>,
    /// The entry of each group that may be open, outermost first.
    offsets: Vec<u32>,
    /// From which of them on it is certain that one leads to the next.
    certain: usize,
}

impl Place {
    /// What stands before a conflict: nothing at the very start, then 31 or 38. A report without 38
    /// at its start has none.
    fn next(&mut self, bytes: &mut Reader<'_>) -> Result<(), BytesError> {
        let mut ahead = bytes.peek();
        if ahead == Some(AT_NODE) && (self.node.is_some() || !self.begun) {
            bytes.byte()?;
            self.node = Some(bytes.two()?);
            self.offsets.clear();
            self.certain = 0;
            self.begun = true;
            return Ok(());
        }
        if !self.begun {
            self.begun = true;
            return Ok(());
        }
        // One more entry of the innermost group, or of one around it.
        if self.offsets.pop().is_none() {
            ahead = None;
        }
        let command = bytes.byte()?;
        if ahead != Some(AT_OFFSET) {
            return Err(bytes.fault(1, ByteFault::Command(command)));
        }
        self.certain = self.offsets.len();
        self.offsets.push(bytes.four()?);
        Ok(())
    }

    /// Goes down through the groups that begin here, to the first conflict.
    fn descend(&mut self, bytes: &mut Reader<'_>) -> Result<ConflictKind, BytesError> {
        loop {
            let command = bytes.byte()?;
            if command != CONFLICTS {
                return self.kind(command, bytes);
            }
            if self.offsets.len() >= MOST_NODES {
                return Err(bytes.fault(1, ByteFault::TooDeep));
            }
            let command = bytes.byte()?;
            if command != AT_OFFSET {
                return Err(bytes.fault(1, ByteFault::Command(command)));
            }
            self.offsets.push(bytes.four()?);
        }
    }

    fn kind(&self, command: u8, bytes: &mut Reader<'_>) -> Result<ConflictKind, BytesError> {
        Ok(match command {
            TYPE => ConflictKind::Type,
            HANDLE => ConflictKind::Handle,
            FAILED => ConflictKind::Failed(Type(bytes.four()?)),
            STRIDE => ConflictKind::Stride(bytes.four()?),
            STRADDLE => ConflictKind::Straddle { entry: bytes.four()?, usage: bytes.four()? },
            UNLIKE if self.node.is_none() && self.offsets.is_empty() => ConflictKind::Unlike,
            _ => return Err(bytes.fault(1, ByteFault::Command(command))),
        })
    }

    fn conflict(&self, kind: ConflictKind) -> Conflict {
        let (perhaps, certain) = self.offsets.split_at(self.certain.min(self.offsets.len()));
        Conflict {
            node: self.node,
            perhaps_within: perhaps.to_vec(),
            offsets: certain.to_vec(),
            kind,
        }
    }
}

impl Display for ConflictKind {
    fn fmt(&self, f: &mut Formatter<'_>) -> fmt::Result {
        match self {
            ConflictKind::Type => {
                f.write_str("no type here supports the other usage; the receiver's type is kept")
            }
            ConflictKind::Handle => f.write_str("a handle type is used as memory; it is kept"),
            ConflictKind::Failed(ty) => {
                write!(f, "the layout of type {} failed; the type is kept", ty.0)
            }
            ConflictKind::Stride(stride) => {
                write!(f, "the usage does not go into an element of the array of stride {stride}")?;
                f.write_str(", which stays as it was")
            }
            ConflictKind::Straddle { entry, usage } => {
                write!(f, "the entry at {entry} and the usage at {usage} straddle")?;
                f.write_str("; neither is kept")
            }
            ConflictKind::Unlike => {
                f.write_str("the two are unlike handles, or a handle and memory; the first is kept")
            }
        }
    }
}

impl Display for Conflict {
    fn fmt(&self, f: &mut Formatter<'_>) -> fmt::Result {
        let mut before = "";
        if let Some(node) = self.node {
            write!(f, "merging in node {node}")?;
            before = ", ";
        }
        for offset in &self.offsets {
            write!(f, "{before}entry at {offset}")?;
            before = ", ";
        }
        if !self.perhaps_within.is_empty() {
            let perhaps: Vec<String> = self.perhaps_within.iter().map(u32::to_string).collect();
            write!(f, " (perhaps under {}; the report does not say)", perhaps.join(", "))?;
        }
        let colon = if before.is_empty() { "" } else { ": " };
        write!(f, "{colon}{}", self.kind)
    }
}

#[cfg(test)]
mod tests {
    use super::*;

    /// Commands as they stand in a report; numbers of four bytes unless they follow 38.
    fn report(words: &str) -> Vec<u8> {
        let mut bytes = Vec::new();
        for part in words.split(", ").filter(|part| !part.is_empty()) {
            let mut words = part.split(' ');
            let command = words.next().map(|word| u8::from_str_radix(word, 16).unwrap()).unwrap();
            bytes.push(command);
            for operand in words {
                let operand = operand.parse::<u32>().unwrap().to_le_bytes();
                bytes.extend(&operand[..if command == AT_NODE { 2 } else { 4 }]);
            }
        }
        bytes
    }

    fn words(report_words: &str) -> Vec<String> {
        let conflicts = Conflict::list_from_bytes(&report(report_words)).unwrap();
        conflicts.iter().map(Conflict::to_string).collect()
    }

    fn place(report_words: &str) -> Vec<(Vec<u32>, Vec<u32>)> {
        let conflicts = Conflict::list_from_bytes(&report(report_words)).unwrap();
        conflicts.into_iter().map(|one| (one.perhaps_within, one.offsets)).collect()
    }

    #[test]
    fn no_report_is_no_conflict() {
        assert!(words("").is_empty());
    }

    #[test]
    fn each_kind_has_its_words() {
        assert_eq!(words("33"), ["a handle type is used as memory; it is kept"]);
        assert_eq!(words("34 7"), ["the layout of type 7 failed; the type is kept"]);
        assert!(words("32")[0].starts_with("no type here supports"));
        assert!(words("35 16")[0].contains("array of stride 16"));
        assert!(words("36 4 2")[0].starts_with("the entry at 4 and the usage at 2 straddle"));
        assert!(words("37")[0].starts_with("the two are unlike handles"));
        assert_eq!(
            words("30, 31 8, 33"),
            ["entry at 8: a handle type is used as memory; it is kept"]
        );
    }

    #[test]
    fn a_single_group_is_exact() {
        let expected = [(vec![], vec![0]), (vec![], vec![4]), (vec![], vec![8])];
        assert_eq!(place("30, 31 0, 32, 31 4, 36 1 2, 31 8, 32"), expected);
    }

    #[test]
    fn the_first_in_nested_groups_is_exact_and_the_next_is_not() {
        let expected = [(vec![], vec![0, 4]), (vec![0], vec![8]), (vec![0], vec![12])];
        assert_eq!(place("30, 31 0, 30, 31 4, 32, 31 8, 32, 31 12, 32"), expected);
        let nested = [(vec![], vec![0, 4]), (vec![0], vec![8, 2]), (vec![0, 8], vec![3])];
        assert_eq!(place("30, 31 0, 30, 31 4, 32, 31 8, 30, 31 2, 32, 31 3, 32"), nested);
        let told = words("30, 31 0, 30, 31 4, 32, 31 8, 33");
        let perhaps = "entry at 8 (perhaps under 0; the report does not say): a handle type";
        assert!(told[1].starts_with(perhaps), "{told:?}");
    }

    #[test]
    fn a_node_of_a_list_ends_all_groups() {
        let told = words("38 1, 30, 31 0, 30, 31 4, 32, 38 2, 33");
        assert!(told[0].starts_with("merging in node 1, entry at 0, entry at 4: no type"));
        assert_eq!(told[1], "merging in node 2: a handle type is used as memory; it is kept");
    }

    #[test]
    fn other_bytes_are_no_report() {
        let bad = [
            "30",
            "31 0, 32",
            "32, 32",
            "30, 32",
            "30, 31 0",
            "37, 32",
            "38 1",
            "38 1, 37",
            "39",
            "32, 31 0, 32",
            "32, 38 1, 32",
            "30, 31 0, 37",
            "38 1, 31 0, 32",
        ];
        for words in bad {
            assert!(Conflict::list_from_bytes(&report(words)).is_err(), "{words}");
        }
        assert!(Conflict::list_from_bytes(&[0x36, 0, 0]).is_err());
    }

    #[test]
    fn groups_nest_to_a_limit() {
        let nested = |levels: usize| [report("30, 31 0").repeat(levels), vec![0x32]].concat();
        assert!(Conflict::list_from_bytes(&nested(512)).is_ok());
        let error = Conflict::list_from_bytes(&nested(513)).unwrap_err();
        assert_eq!(error, BytesError { position: 512 * 6, fault: ByteFault::TooDeep });
    }
}
