//! Long chains of rules, in the order that takes the most passes and in others.

use crate::decoded::Token;
use crate::random::Random;
use crate::scenes;
use crate::tests::{case, Case, Met, Outcome};
use crate::words;

/// Rules by which each token, from the lowest on, follows from the one above it. In this order a pass adds one token,
/// the one below the last that was added.
pub fn worst_order(lowest: u32, highest: u32) -> Vec<u32> {
    (lowest..highest).map(|token| words::rule(token, token + 1, token + 1)).collect()
}

/// What brings in the highest token of a chain.
#[derive(Clone, Copy, PartialEq, Eq)]
pub enum Start {
    Fact,
    Input,
    Tell,
}

/// A chain in its worst order, from the highest of so many tokens down to the lowest, at every instant anew.
#[derive(Clone, Copy)]
pub struct Chain {
    pub tokens: u32,
    pub lowest: u32,
    pub start: Start,
}

impl Chain {
    fn highest(self) -> u32 {
        self.tokens - 1
    }

    /// A fact is the last of them, so that it takes a pass of its own.
    pub fn rules(self) -> Vec<u32> {
        let mut rules = worst_order(self.lowest, self.highest());
        if self.start == Start::Fact {
            rules.push(words::fact(self.highest()));
        }
        rules
    }

    pub fn score(self) -> Vec<u8> {
        let told = (self.start == Start::Tell).then_some(self.highest());
        scenes::plain(self.tokens, agents(self.lowest, told), self.rules())
    }

    /// The input of each instant.
    pub fn inputs(self) -> Vec<Token> {
        if self.start == Start::Input {
            vec![self.highest() as usize]
        } else {
            vec![]
        }
    }

    /// The store that each instant ends with.
    pub fn store(self) -> Vec<Token> {
        (self.lowest as usize..self.tokens as usize).collect()
    }

    /// How many agents an instant from the start state reduces. A later one reduces the call besides.
    pub fn reduced(self) -> u32 {
        if self.start == Start::Tell {
            7
        } else {
            5
        }
    }
}

/// The agent that calls the chain's agents again, awake after every instant.
pub const CALL: usize = 4;

/// A when and an unless on one token, at every instant, and at times a tell of another.
fn agents(asked: u32, told: Option<u32>) -> Vec<u32> {
    let mut agents = scenes::asking(asked);
    agents.extend([words::call(0), words::next(CALL as u32), words::parallel(3, 5)]);
    if let Some(token) = told {
        agents.extend([words::tell(token), words::parallel(6, 7)]);
    }
    agents
}

/// A case for each start and each end of a chain, with 254, 255 and 256 tokens.
pub fn cases(falls: fn(&mut Met, Chain) -> Outcome) -> Vec<Case> {
    let falling = |name, start, lowest| {
        case(name, move |met| (254..=256).try_for_each(|tokens| falls(met, Chain { tokens, lowest, start })))
    };
    vec![
        falling("254 to 256 tokens in the worst order, from a fact to token 1", Start::Fact, 1),
        falling("254 to 256 tokens in the worst order, from a fact to the clash", Start::Fact, 0),
        falling("254 to 256 tokens in the worst order, from an input to token 1", Start::Input, 1),
        falling("254 to 256 tokens in the worst order, from an input to the clash", Start::Input, 0),
        falling("254 to 256 tokens in the worst order, from a tell to token 1", Start::Tell, 1),
        falling("254 to 256 tokens in the worst order, from a tell to the clash", Start::Tell, 0),
    ]
}

/// Leaves a worst order as it is, rotates it, or shuffles it.
fn reorder(random: &mut Random, rules: &mut [u32]) {
    match random.below(3) {
        0 => {}
        1 => rules.rotate_left(random.below(rules.len() as u32) as usize),
        _ => random.shuffle(rules),
    }
}

/// Puts a fact at a random place among rules, often the last: of the highest token, or at times of another.
fn add_fact(random: &mut Random, rules: &mut Vec<u32>, tokens: u32) {
    let token = if random.one_in(4) { scenes::token(random, tokens, 64) } else { tokens - 1 };
    let last = rules.len() as u32;
    let place = if random.one_in(2) { last } else { random.below(last + 1) };
    rules.insert(place as usize, words::fact(token));
}

const MOST_RULES: u32 = 256;

/// A chain of 240 to 256 tokens down to the clash, or to token 1, in any order, with facts or without.
pub fn long_chain(random: &mut Random) -> Vec<u8> {
    let tokens = if random.one_in(2) { 256 } else { random.between(240, 255) };
    let lowest = random.below(2);
    let mut rules = worst_order(lowest, tokens - 1);
    reorder(random, &mut rules);
    let room = MOST_RULES - rules.len() as u32;
    for _ in 0..random.below(4).min(room) {
        add_fact(random, &mut rules, tokens);
    }
    let told = if random.one_in(2) { Some(tokens - 1) } else { None };
    scenes::plain(tokens, agents(lowest, told), rules)
}

/// The input of an instant that starts a chain at its top, or does not start it.
pub fn highest_or_none(random: &mut Random, tokens: usize) -> Vec<Token> {
    if random.one_in(2) {
        vec![tokens - 1]
    } else {
        vec![]
    }
}
