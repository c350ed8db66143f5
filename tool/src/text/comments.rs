//! Comments, each kept beside what it stood by.

use crate::score::Part;
use std::collections::BTreeMap;

/// What a comment can stand by.
#[derive(Clone, Copy, PartialEq, Eq, PartialOrd, Ord, Debug)]
pub enum Anchor {
    Part(Part),
    /// The name of a token.
    Token(usize),
    /// A reference on a line of its own: the root of a procedure, or the first or second half of an agent.
    Root(usize),
    First(usize),
    Second(usize),
    /// The heading of the agents that nothing leads to.
    Unused,
    End,
}

/// Comments on lines of their own before an anchor and after all that is indented under it, and at the end of its line, as
/// written from `#` on. A line that is empty, after such a comment, is kept with them.
#[derive(Clone, Default, PartialEq, Eq, Debug)]
pub struct Comments {
    pub before: BTreeMap<Anchor, Vec<String>>,
    pub beside: BTreeMap<Anchor, String>,
    pub after: BTreeMap<Anchor, Vec<String>>,
}

impl Comments {
    /// Adds what stands by an anchor. An anchor that has a comment beside it already gets another one before.
    pub fn add(&mut self, anchor: Anchor, noted: &Noted) {
        let lines = |comments: &[&str]| comments.iter().map(|comment| comment.to_string()).collect::<Vec<_>>();
        let (mut before, mut after) = (lines(&noted.before), lines(&noted.after));
        if let Some(comment) = noted.beside {
            if self.beside.contains_key(&anchor) {
                before.push(comment.to_string());
            } else {
                self.beside.insert(anchor, comment.to_string());
            }
        }
        if !before.is_empty() {
            self.before.entry(anchor).or_default().append(&mut before);
        }
        if !after.is_empty() {
            self.after.entry(anchor).or_default().append(&mut after);
        }
    }

    pub fn has(&self, anchor: Anchor) -> bool {
        self.before.contains_key(&anchor) || self.beside.contains_key(&anchor) || self.after.contains_key(&anchor)
    }
}

/// The comments of a line: those on the lines before it, the one at its end, and those after what is indented under it.
#[derive(Clone, Default, Debug)]
pub struct Noted<'a> {
    pub before: Vec<&'a str>,
    pub beside: Option<&'a str>,
    pub after: Vec<&'a str>,
}

impl<'a> Noted<'a> {
    /// Adds the comments of a line that is printed as one with this one.
    pub fn push(&mut self, other: Noted<'a>) {
        self.before.extend(other.before);
        match self.beside {
            Some(_) => self.before.extend(other.beside),
            None => self.beside = other.beside,
        }
    }
}
