//! Clashes: scores with ports of every kind, lists in which clashes come and go, and journals as document 01 has them,
//! in which a clash sends what is at the ports.

#[cfg(test)]
mod tests;

use crate::decoded::{Decoded, Form, Token};
use crate::engine::{close, Store};
use crate::generate::Score;
use crate::lent::*;
use crate::random::Random;
use crate::words::{self, to_bytes};
use crate::{oracle, scenes};
use std::ops::Range;

/// What can bring the clash into a store.
pub const CAUSES: [&str; 4] =
    ["a clash by an input of token 0", "a clash by facts alone", "a clash by a rule", "a clash where token 0 is told"];

/// What brought about a clash, by these inputs. Where token 0 stands in a tell, a rule may have been before it.
pub fn cause(score: &Decoded, inputs: &[Token]) -> &'static str {
    let tells = score.agents.iter().any(|form| matches!(form, Form::Tell(0)));
    if inputs.contains(&0) {
        CAUSES[0]
    } else if standing(score)[0] {
        CAUSES[1]
    } else if !tells {
        CAUSES[2]
    } else {
        CAUSES[3]
    }
}

/// The closure of nothing.
pub fn standing(score: &Decoded) -> Store {
    let mut store = vec![false; score.tokens];
    close(&score.rules, &mut store);
    store
}

/// What the ports of a clash can be.
pub const PORTS: [&str; 4] = [
    "a clash with token 0 among the ports",
    "a clash with token 0 outside the ports",
    "a clash with one port",
    "a clash with all tokens at the ports",
];

pub fn kinds_of_ports(score: &Decoded) -> impl Iterator<Item = &'static str> {
    let (lowest, ports) = (*score.ports.start(), score.ports.clone().count());
    let holds = [lowest == 0, lowest > 0, ports == 1, ports == score.tokens];
    PORTS.into_iter().zip(holds).filter(|(_, holds)| *holds).map(|(name, _)| name)
}

/// Ports of one of these kinds.
fn ports(random: &mut Random, tokens: u32) -> u32 {
    let last = tokens - 1;
    let (one, lowest) = (random.below(tokens), last.min(1));
    match random.below(6) {
        0 => words::ports(0, last),
        1 => words::ports(0, 0),
        2 => words::ports(one, one),
        3 => words::ports(0, one),
        4 => words::ports(lowest, last),
        _ => words::ports(one, random.between(one, last)),
    }
}

/// Agents from a number on, of which the last aborts in a clash, or in the instant after it; or none.
fn aborting(random: &mut Random, first: u32) -> Vec<u32> {
    match random.below(6) {
        0 => vec![words::abort(), words::when(first, 0)],
        1 => vec![words::abort(), words::next(first), words::when(first + 1, 0)],
        _ => vec![],
    }
}

const MOST_RULES: usize = 256;
const MOST_AGENTS: usize = 1024;

/// A score with such ports; in some a rule more leads to the clash, others abort in it or after it.
pub fn score(random: &mut Random) -> Vec<u8> {
    let mut score = Score::read(&scenes::score(random));
    score.ports = ports(random, score.tokens);
    if random.one_in(2) && score.rules.len() < MOST_RULES {
        score.rules.push(words::rule(0, random.below(score.tokens), random.below(score.tokens)));
    }
    let aborting = aborting(random, score.agents.len() as u32);
    if !aborting.is_empty() && score.agents.len() + aborting.len() < MOST_AGENTS {
        score.agents.extend(aborting);
        let (root, last) = (score.procedures[0] & 0x3FF, score.agents.len() as u32 - 1);
        score.agents.push(words::parallel(root, last));
        score.procedures[0] = words::procedure(last + 1);
    }
    score.bytes()
}

/// The inputs of an instant; token 0 is among them one time in five.
pub fn inputs(random: &mut Random, score: &Decoded) -> Vec<Token> {
    let mut inputs = match random.below(4) {
        0 => vec![],
        1 => scenes::tokens(random, score),
        _ => vec![random.below(score.tokens as u32) as usize],
    };
    inputs.retain(|&token| token != 0);
    if random.one_in(5) {
        inputs.insert(0, 0);
    }
    inputs
}

pub fn list(random: &mut Random, score: &Decoded, most: u32) -> Vec<Vec<Token>> {
    (0..random.between(1, most)).map(|_| inputs(random, score)).collect()
}

/// The instants of a journal, each with its words.
fn each_instant(journal: &[u8]) -> Vec<Vec<u32>> {
    let words = oracle::words(journal);
    instants(journal).into_iter().map(|range| words[range].to_vec()).collect()
}

/// The numbers of a journal's instants that have status 1.
pub fn clashes(journal: &[u8]) -> Vec<usize> {
    let is_clash = |(number, words): (usize, Vec<u32>)| (words[0] == instant_word(1)).then_some(number);
    each_instant(journal).into_iter().enumerate().filter_map(is_clash).collect()
}

/// The bytes of an instant's output words.
pub fn output_bytes(journal: &[u8], instant: usize) -> Range<usize> {
    let (words, range) = (oracle::words(journal), instants(journal)[instant].clone());
    let first = range.clone().find(|&at| oracle::kind(words[at]) == 14).unwrap_or(range.end);
    4 * first..4 * range.end
}

/// A journal with these clashes as document 01 has them. All tokens are in the store, so that every port is sent.
pub fn sent(score: &Decoded, journal: &[u8], clashes: &[usize]) -> Vec<u8> {
    let mut instants = each_instant(journal);
    for &clash in clashes {
        instants[clash].extend(score.ports.clone().map(output_word));
    }
    to_bytes(&instants.concat())
}
