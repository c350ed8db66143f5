//! The text form of scores (docs/TEXT.md).

mod comments;
mod layout;
pub(crate) mod lines;
mod make;
mod parse;
mod print;

pub use comments::Comments;
pub use make::{make, Made};
pub(crate) use parse::number;
pub use print::{brief, print, Listing};

use crate::score::Part;
use std::ops::Range;

/// Where each word of a score stands in a text.
#[derive(Clone, Default, PartialEq, Eq, Debug)]
pub struct Places {
    pub head: Range<usize>,
    pub ports: Range<usize>,
    pub agents: Vec<Range<usize>>,
    pub procedures: Vec<Range<usize>>,
    pub rules: Vec<Range<usize>>,
}

impl Places {
    pub fn of(&self, part: Part) -> Range<usize> {
        match part {
            Part::Head => self.head.clone(),
            Part::Ports => self.ports.clone(),
            Part::Agent(agent) => self.agents[agent].clone(),
            Part::Procedure(procedure) => self.procedures[procedure].clone(),
            Part::Rule(rule) => self.rules[rule].clone(),
        }
    }
}
