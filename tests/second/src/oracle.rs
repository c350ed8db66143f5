//! The score check, written from the document alone and as close to its words as can be.

use crate::answer::{refused, Answer, ACCEPTED};
use std::ops::Range;

/// T, N and P.
struct Sizes {
    tokens: usize,
    agents: usize,
    procedures: usize,
}

#[derive(Clone, Copy)]
enum Place {
    Ports,
    Agent(usize),
    Procedure,
    Rule,
}

pub fn check(score: &[u8]) -> Answer {
    if score.is_empty() || !score.len().is_multiple_of(4) || score.len() > 5384 {
        return refused(1, 0);
    }
    let words = words(score);
    let Some(sizes) = sizes(words[0]) else {
        return refused(2, 0);
    };
    let least = 2 + sizes.agents + sizes.procedures;
    if words.len() < least || words.len() > least + 256 {
        return refused(3, 0);
    }
    for (at, &word) in words.iter().enumerate().skip(1) {
        if let Some(number) = fault(&sizes, place(&sizes, at), word) {
            return refused(number, at as u64);
        }
    }
    match lowest_on_circle(&sizes, &words) {
        Some(procedure) => refused(7, procedure as u64),
        None => ACCEPTED,
    }
}

/// The whole words.
pub fn words(score: &[u8]) -> Vec<u32> {
    score.chunks_exact(4).map(|bytes| u32::from_le_bytes(bytes.try_into().expect("a word has four bytes"))).collect()
}

pub fn kind(word: u32) -> u32 {
    word >> 28
}

/// The named bits of a kind, field by field: highest and lowest.
fn fields(kind: u32) -> &'static [(u32, u32)] {
    match kind {
        1 => &[(7, 0), (17, 8), (23, 18)],
        11 => &[(7, 0), (15, 8)],
        3 => &[(9, 0)],
        2 => &[(7, 0), (15, 8), (23, 16), (27, 27)],
        4 => &[(0, 0)],
        5 => &[(7, 0)],
        6 => &[(9, 0), (19, 10)],
        7 => &[(9, 0), (17, 10)],
        8 => &[(9, 0)],
        9 => &[(9, 0), (17, 10)],
        10 => &[(5, 0)],
        _ => &[],
    }
}

pub fn field(word: u32, index: usize) -> usize {
    let (highest, lowest) = fields(kind(word))[index];
    (word as usize >> lowest) % (1 << (highest - lowest + 1))
}

fn has_unnamed_bit(word: u32) -> bool {
    (0..28).filter(|bit| word >> bit & 1 == 1).any(|bit| !is_named(kind(word), bit))
}

fn is_named(kind: u32, bit: u32) -> bool {
    fields(kind).iter().any(|&(highest, lowest)| (lowest..=highest).contains(&bit))
}

/// A rule word that says that its conclusion holds with no premise.
pub fn is_fact(word: u32) -> bool {
    kind(word) == 2 && field(word, 3) == 1
}

/// The bits of the premises are zero in a fact.
fn is_damaged_fact(word: u32) -> bool {
    is_fact(word) && (field(word, 1) != 0 || field(word, 2) != 0)
}

fn sizes(word: u32) -> Option<Sizes> {
    if kind(word) != 1 || has_unnamed_bit(word) {
        return None;
    }
    Some(Sizes { tokens: field(word, 0) + 1, agents: field(word, 1) + 1, procedures: field(word, 2) + 1 })
}

/// The place of a word after the head.
fn place(sizes: &Sizes, at: usize) -> Place {
    if at == 1 {
        Place::Ports
    } else if at < 2 + sizes.agents {
        Place::Agent(at - 2)
    } else if at < 2 + sizes.agents + sizes.procedures {
        Place::Procedure
    } else {
        Place::Rule
    }
}

/// The places of the agents, or those that there are where the words are too few; none where they have no head.
pub fn agent_places(words: &[u32]) -> Range<usize> {
    let agents = words.first().and_then(|&head| sizes(head)).map_or(0, |sizes| sizes.agents);
    2.min(words.len())..(2 + agents).min(words.len())
}

/// The places of the rules; none where the words have no head, or are too few.
pub fn rule_places(words: &[u32]) -> Range<usize> {
    let sizes = words.first().and_then(|&head| sizes(head));
    let first = sizes.map_or(words.len(), |sizes| 2 + sizes.agents + sizes.procedures);
    first.min(words.len())..words.len()
}

/// The lowest of 4, 5 and 6 that a word meets.
fn fault(sizes: &Sizes, place: Place, word: u32) -> Option<u32> {
    if !fits(place, kind(word)) || has_unnamed_bit(word) || is_damaged_fact(word) {
        Some(4)
    } else if tokens(word).iter().any(|&token| token >= sizes.tokens) {
        Some(5)
    } else if is_misdirected(sizes, place, word) {
        Some(6)
    } else {
        None
    }
}

fn fits(place: Place, kind: u32) -> bool {
    match place {
        Place::Ports => kind == 11,
        Place::Agent(_) => (4..=10).contains(&kind),
        Place::Procedure => kind == 3,
        Place::Rule => kind == 2,
    }
}

fn tokens(word: u32) -> Vec<usize> {
    match kind(word) {
        11 => vec![field(word, 0), field(word, 1)],
        2 => vec![field(word, 0), field(word, 1), field(word, 2)],
        5 => vec![field(word, 0)],
        7 | 9 => vec![field(word, 1)],
        _ => vec![],
    }
}

fn is_misdirected(sizes: &Sizes, place: Place, word: u32) -> bool {
    match place {
        Place::Ports => field(word, 0) > field(word, 1),
        Place::Agent(_) if kind(word) == 10 => field(word, 0) >= sizes.procedures,
        Place::Agent(agent) => bodies(word).iter().any(|&body| body >= agent),
        Place::Procedure => field(word, 0) >= sizes.agents,
        Place::Rule => false,
    }
}

/// The bodies or halves of an agent.
fn bodies(word: u32) -> Vec<usize> {
    match kind(word) {
        6 => vec![field(word, 0), field(word, 1)],
        7..=9 => vec![field(word, 0)],
        _ => vec![],
    }
}

fn lowest_on_circle(sizes: &Sizes, words: &[u32]) -> Option<usize> {
    let calls: Vec<Vec<usize>> = (0..sizes.procedures)
        .map(|procedure| unguarded_calls(words, field(words[2 + sizes.agents + procedure], 0)))
        .collect();
    (0..sizes.procedures).find(|&procedure| leads_back(&calls, procedure))
}

/// The procedures called where a root leads through parallel and when alone.
fn unguarded_calls(words: &[u32], root: usize) -> Vec<usize> {
    let mut called = Vec::new();
    let mut seen = vec![false; words.len()];
    let mut open = vec![root];
    while let Some(agent) = open.pop() {
        if seen[agent] {
            continue;
        }
        seen[agent] = true;
        let word = words[2 + agent];
        match kind(word) {
            6 | 7 => open.extend(bodies(word)),
            10 => called.push(field(word, 0)),
            _ => {}
        }
    }
    called
}

/// Whether one or more calls lead from a procedure back to itself.
fn leads_back(calls: &[Vec<usize>], start: usize) -> bool {
    let mut seen = vec![false; calls.len()];
    let mut open = calls[start].clone();
    while let Some(procedure) = open.pop() {
        if procedure == start {
            return true;
        }
        if !seen[procedure] {
            seen[procedure] = true;
            open.extend(&calls[procedure]);
        }
    }
    false
}
