//! The layout test as the port has it (`crates/support`), with all that it remembers; and how often it asks.

use super::nodes::{Asking, First, Matter, Node, NodeKind};
use crate::usage::{Table, Usage};

/// An answer, and the questions that it took: the outermost and all inside of it.
#[derive(Clone, Copy, Debug, PartialEq, Eq)]
pub struct Asked {
    pub yes: bool,
    pub questions: u64,
}

/// Asks as the port does; `None` past so many questions.
pub fn ours(table: &Table, ty: u32, at: u32, usage: &Usage, most: u64) -> Option<Asked> {
    let matter = Matter::new(table, usage);
    let nothing = Remembered { tag: 0, at: 0 };
    let marks = vec![nothing; matter.nodes.len()];
    let list = vec![nothing; listed(&matter.nodes, ty)];
    let mut port = Port { matter, marks, list, questions: 1, most };
    let yes = match port.matter.first_tests(ty, at, 0) {
        First::Yes => true,
        First::No => false,
        First::Open => port.past_tests(ty, at, 0)?,
    };
    Some(Asked { yes, questions: port.questions })
}

/// How many answers the list has room for: none where no question can come back in turns.
fn listed(nodes: &[Node], ty: u32) -> usize {
    let inner = |node: &Node| matches!(node.kind, NodeKind::Map | NodeKind::Array(_));
    if !nodes.iter().any(Node::is_empty) && !nodes[1..].iter().any(inner) {
        return 0;
    }
    if nodes.len() <= 8 && ty < 8 { 256 } else { 4096 }
}

/// An answer that is remembered: a number (for a node's mark the type, in the list node and type) doubled, with one more for no or two
/// for yes, and the offset.
#[derive(Clone, Copy)]
struct Remembered {
    tag: u32,
    at: u32,
}

impl Remembered {
    fn new(number: u32, at: u32, yes: bool) -> Remembered {
        Remembered { tag: number * 2 + 1 + u32::from(yes), at }
    }

    /// The answer, if it is to this question.
    fn answer(self, number: u32, at: u32) -> Option<bool> {
        let yes = self.tag == number * 2 + 2;
        (self.at == at && (yes || self.tag == number * 2 + 1)).then_some(yes)
    }
}

struct Port<'a> {
    matter: Matter<'a>,
    /// By node, the last question that went past the first tests.
    marks: Vec<Remembered>,
    list: Vec<Remembered>,
    questions: u64,
    most: u64,
}

impl<'a> Asking<'a> for Port<'a> {
    fn matter(&self) -> &Matter<'a> {
        &self.matter
    }

    fn asked(&mut self, ty: u32, at: u32, q: usize) -> Option<bool> {
        self.questions += 1;
        if self.questions > self.most {
            return None;
        }
        match self.matter.first_tests(ty, at, q) {
            First::Yes => Some(true),
            First::No => Some(false),
            First::Open => match self.recall(ty, at, q) {
                Some(answer) => Some(answer),
                None => {
                    let yes = self.past_tests(ty, at, q)?;
                    self.remember(ty, at, q, yes);
                    Some(yes)
                }
            },
        }
    }
}

impl Port<'_> {
    fn recall(&self, ty: u32, at: u32, q: usize) -> Option<bool> {
        let listed = || {
            let number = node_and_type(ty, q);
            self.list.get(self.slot(number, at)?)?.answer(number, at)
        };
        self.marks[q].answer(ty, at).or_else(listed)
    }

    fn remember(&mut self, ty: u32, at: u32, q: usize, yes: bool) {
        self.marks[q] = Remembered::new(ty, at, yes);
        let number = node_and_type(ty, q);
        if let Some(slot) = self.slot(number, at) {
            self.list[slot] = Remembered::new(number, at, yes);
        }
    }

    /// The question's place in the list, if there is one.
    fn slot(&self, number: u32, at: u32) -> Option<usize> {
        let spread = u64::from(number) * 2_654_435_769 / 65_536 + u64::from(at) * 97;
        Some(spread.checked_rem(self.list.len() as u64)? as usize)
    }
}

fn node_and_type(ty: u32, q: usize) -> u32 {
    q as u32 * 1024 + ty
}
