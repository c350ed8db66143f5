//! An accepted score, taken apart.

use crate::oracle::{field, is_fact, kind, words};
use std::ops::RangeInclusive;

pub type Token = usize;
/// The number of an agent.
pub type Agent = usize;

#[derive(Clone, Copy, Debug)]
pub enum Form {
    Skip,
    Abort,
    Tell(Token),
    Parallel(Agent, Agent),
    When { body: Agent, token: Token },
    Next { body: Agent },
    Unless { body: Agent, token: Token },
    Call { procedure: usize },
}

pub struct Rule {
    pub conclusion: Token,
    /// Two, or none in a fact.
    pub premises: Vec<Token>,
}

pub struct Decoded {
    pub tokens: usize,
    pub ports: RangeInclusive<Token>,
    pub agents: Vec<Form>,
    pub roots: Vec<Agent>,
    pub rules: Vec<Rule>,
}

impl Decoded {
    /// Takes apart a score that the check accepts.
    pub fn new(score: &[u8]) -> Decoded {
        let words = words(score);
        let (agents, procedures) = (field(words[0], 1) + 1, field(words[0], 2) + 1);
        let (agents, rest) = words[2..].split_at(agents);
        let (procedures, rules) = rest.split_at(procedures);
        Decoded {
            tokens: field(words[0], 0) + 1,
            ports: field(words[1], 0)..=field(words[1], 1),
            agents: agents.iter().map(|&word| form(word)).collect(),
            roots: procedures.iter().map(|&word| field(word, 0)).collect(),
            rules: rules.iter().map(|&word| rule(word)).collect(),
        }
    }
}

fn form(word: u32) -> Form {
    match kind(word) {
        4 if field(word, 0) == 0 => Form::Skip,
        4 => Form::Abort,
        5 => Form::Tell(field(word, 0)),
        6 => Form::Parallel(field(word, 0), field(word, 1)),
        7 => Form::When { body: field(word, 0), token: field(word, 1) },
        8 => Form::Next { body: field(word, 0) },
        9 => Form::Unless { body: field(word, 0), token: field(word, 1) },
        10 => Form::Call { procedure: field(word, 0) },
        kind => panic!("no agent has kind {kind}"),
    }
}

fn rule(word: u32) -> Rule {
    let premises = if is_fact(word) { vec![] } else { vec![field(word, 1), field(word, 2)] };
    Rule { conclusion: field(word, 0), premises }
}
