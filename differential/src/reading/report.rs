//! The report: its commands, and how conflicts of nested placings are gathered.

use super::Merged;
use crate::usage::Usage;

pub const CONFLICTS: u8 = 0x30;
pub const AT_OFFSET: u8 = 0x31;
pub const TYPE: u8 = 0x32;
pub const HANDLE: u8 = 0x33;
pub const FAILED: u8 = 0x34;
pub const STRIDE: u8 = 0x35;
pub const STRADDLE: u8 = 0x36;
pub const UNLIKE: u8 = 0x37;
pub const AT_NODE: u8 = 0x38;

/// A conflict with operands of four bytes.
pub fn conflict(command: u8, operands: &[u32]) -> Vec<u8> {
    let mut bytes = vec![command];
    operands.iter().for_each(|operand| bytes.extend(operand.to_le_bytes()));
    bytes
}

/// 38 and the node's index, of two bytes.
pub fn at_node(index: usize) -> Vec<u8> {
    let index = u16::try_from(index).expect("a list's index fits two bytes");
    [&[AT_NODE][..], &index.to_le_bytes()].concat()
}

/// What happened so far within rule 2, rule 6 or a fold: conflicts, and pairings.
#[derive(Default)]
pub struct Tally {
    pub conflicts: Vec<Vec<u8>>,
    pub pairings: u32,
}

impl Tally {
    /// Takes in a nested placing, and keeps its usage. `head` stands before its conflict.
    pub fn take(&mut self, nested: Merged<Usage>, head: Vec<u8>) -> Usage {
        self.pairings += nested.pairings;
        if !nested.report.is_empty() {
            self.conflicts.push([head, nested.report].concat());
        }
        nested.usage
    }

    /// The report of rules 2 and 6: 30 before all, only where something conflicts.
    pub fn report(&self, omits_head: bool) -> Vec<u8> {
        let head: &[u8] = match self.conflicts.len() {
            0 => &[],
            1 if omits_head => &[],
            _ => &[CONFLICTS],
        };
        [head, &self.conflicts.concat()].concat()
    }
}
