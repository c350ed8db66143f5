//! Drafts: scores in which an agent may be a watch. Their check, and accepted ones taken apart.

pub mod acts;
pub mod damaged;
pub mod limits;
pub mod order;
pub mod player;
pub mod scenes;
#[cfg(test)]
mod tests;
pub mod written;

use crate::answer::Answer;
use crate::decoded::{self, Agent, Decoded, Token};
use crate::oracle::{self, agent_places, kind, words};
use crate::words::to_bytes;

pub const WATCH: u32 = 15;
const WHEN: u32 = 7;

/// The form of a draft's agent.
pub enum Form {
    Watch { body: Agent, token: Token },
    Plain(decoded::Form),
}

pub struct Draft {
    /// The draft with each watch read as a when, which has the same fields.
    pub score: Decoded,
    watches: Vec<bool>,
}

/// Numbers 1 to 7: a watch is tested like a when, and is unguarded like one.
pub fn check(draft: &[u8]) -> Answer {
    let (whole, cut) = draft.split_at(draft.len() / 4 * 4);
    oracle::check(&[&to_bytes(&watches_as_whens(whole)), cut].concat())
}

/// The words with a when for each watch. Kind 15 at a place that is not an agent's is no watch, and stays.
fn watches_as_whens(draft: &[u8]) -> Vec<u32> {
    let mut words = words(draft);
    for at in agent_places(&words) {
        if kind(words[at]) == WATCH {
            words[at] = words[at] & 0x0FFF_FFFF | WHEN << 28;
        }
    }
    words
}

impl Draft {
    /// Takes apart a draft that the check accepts.
    pub fn new(draft: &[u8]) -> Draft {
        let words = words(draft);
        Draft {
            score: Decoded::new(&to_bytes(&watches_as_whens(draft))),
            watches: words[agent_places(&words)].iter().map(|&word| kind(word) == WATCH).collect(),
        }
    }

    pub fn form(&self, agent: Agent) -> Form {
        match self.score.agents[agent] {
            decoded::Form::When { body, token } if self.watches[agent] => Form::Watch { body, token },
            form => Form::Plain(form),
        }
    }

    pub fn has_watches(&self) -> bool {
        self.watches.contains(&true)
    }
}
