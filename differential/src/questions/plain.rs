//! The layout test as the reference has it, which remembers nothing: how often its function is called. The number is computed, from the
//! numbers of the distinct questions, and not run.

use super::nodes::{Asking, First, Matter};
use crate::usage::{Table, Usage};
use std::collections::HashMap;
use std::mem;

/// An answer, the calls that the plain recursion takes for it, and how many of these are distinct.
#[derive(Clone, Copy, Debug, PartialEq)]
pub struct Counted {
    pub yes: bool,
    /// Exact below 2^53.
    pub calls: f64,
    pub distinct: usize,
}

/// Counts the calls of the plain recursion; `None` past so many distinct questions.
pub fn plain(table: &Table, ty: u32, at: u32, usage: &Usage, most: usize) -> Option<Counted> {
    let matter = Matter::new(table, usage);
    let mut plain = Plain { matter, calls: 0.0, known: HashMap::new(), most };
    let yes = plain.asked(ty, at, 0)?;
    Some(Counted { yes, calls: plain.calls, distinct: plain.known.len() })
}

/// An answer, and the calls that it takes.
#[derive(Clone, Copy)]
struct Told {
    yes: bool,
    calls: f64,
}

struct Plain<'a> {
    matter: Matter<'a>,
    /// The calls so far of the question that is being asked.
    calls: f64,
    /// By type, offset and node.
    known: HashMap<(u32, u32, usize), Told>,
    most: usize,
}

impl<'a> Asking<'a> for Plain<'a> {
    fn matter(&self) -> &Matter<'a> {
        &self.matter
    }

    fn asked(&mut self, ty: u32, at: u32, q: usize) -> Option<bool> {
        if let Some(&Told { yes, calls }) = self.known.get(&(ty, at, q)) {
            self.calls += calls;
            return Some(yes);
        }
        let outside = mem::replace(&mut self.calls, 1.0);
        let yes = match self.matter.first_tests(ty, at, q) {
            First::Yes => true,
            First::No => false,
            First::Open => self.past_tests(ty, at, q)?,
        };
        if self.known.len() == self.most {
            return None;
        }
        self.known.insert((ty, at, q), Told { yes, calls: self.calls });
        self.calls += outside;
        Some(yes)
    }
}
