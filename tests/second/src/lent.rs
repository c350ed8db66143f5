//! What the caller lends: states, maps, input lists and journals, as bytes and taken apart.

use crate::decoded::{Agent, Decoded, Token};
use crate::oracle::{kind, words};
use crate::words::to_bytes;
use std::collections::BTreeSet;
use std::ops::Range;

pub const STATE_BYTES: usize = 136;
pub const MAP_BYTES: usize = 32;
pub const SCRATCH_BYTES: usize = 128;
pub const PLAIN_BYTES: usize = 5384;

pub const RUNNING: u32 = 0xF000_0000;
pub const ABORTED: u32 = 0xF000_0001;

/// The last number that a state can have.
pub const LAST_NUMBER: u32 = u32::MAX;

/// The bytes of a state that its agents stand in, and those of its number.
pub const AGENT_BYTES: Range<usize> = 4..132;
const NUMBER_BYTES: Range<usize> = 132..136;

/// What plays in the next instant.
#[derive(Clone, PartialEq, Eq, Debug)]
pub enum Awake {
    Running(BTreeSet<Agent>),
    Aborted,
}

/// The number is how many instants were run since the start, aborted ones included.
#[derive(Clone, PartialEq, Eq, Debug)]
pub struct State {
    pub awake: Awake,
    pub number: u32,
}

impl State {
    pub fn start(score: &Decoded) -> State {
        State { awake: Awake::Running(BTreeSet::from([score.roots[0]])), number: 0 }
    }

    /// Nothing where the bytes meet number 9, which does not look at the last word.
    pub fn read(score: &Decoded, bytes: &[u8]) -> Option<State> {
        let words = words(bytes);
        let agents: BTreeSet<Agent> =
            (0..1024).filter(|agent| words[1 + agent / 32] >> (agent % 32) & 1 == 1).collect();
        let awake = match words[0] {
            RUNNING if agents.iter().all(|&agent| agent < score.agents.len()) => Awake::Running(agents),
            ABORTED if agents.is_empty() => Awake::Aborted,
            _ => return None,
        };
        Some(State { awake, number: words[33] })
    }

    pub fn bytes(&self) -> Vec<u8> {
        let bytes = match &self.awake {
            Awake::Running(agents) => state_bytes(RUNNING, agents.iter().copied()),
            Awake::Aborted => state_bytes(ABORTED, []),
        };
        numbered(bytes, self.number)
    }
}

/// The bytes of a state with another number.
pub fn numbered(mut state: Vec<u8>, number: u32) -> Vec<u8> {
    state[NUMBER_BYTES].copy_from_slice(&number.to_le_bytes());
    state
}

/// The number of a state's bytes.
pub fn number_of(state: &[u8]) -> u32 {
    words(state)[33]
}

pub fn is_aborted(state: &[u8]) -> bool {
    words(state)[0] == ABORTED
}

/// With number 0.
pub fn state_bytes(word_0: u32, agents: impl IntoIterator<Item = Agent>) -> Vec<u8> {
    let mut words = [0; STATE_BYTES / 4];
    words[0] = word_0;
    for agent in agents {
        words[1 + agent / 32] |= 1 << (agent % 32);
    }
    to_bytes(&words)
}

pub fn map_bytes(tokens: &[Token]) -> Vec<u8> {
    let mut bytes = vec![0; MAP_BYTES];
    for token in tokens {
        bytes[token / 8] |= 1 << (token % 8);
    }
    bytes
}

/// The tokens of a map, rising.
pub fn map_tokens(bytes: &[u8]) -> Vec<Token> {
    (0..256).filter(|token| bytes[token / 8] >> (token % 8) & 1 == 1).collect()
}

pub fn instant_word(status: u32) -> u32 {
    0xC000_0000 | status
}

pub fn input_word(token: Token) -> u32 {
    0xD000_0000 | token as u32
}

pub fn output_word(token: Token) -> u32 {
    0xE000_0000 | token as u32
}

/// The bytes of an input list.
pub fn list_bytes(instants: &[Vec<Token>]) -> Vec<u8> {
    instants.iter().flat_map(|inputs| instant_bytes(0, inputs, &[])).collect()
}

/// One instant of a list or journal.
pub fn instant_bytes(status: u32, inputs: &[Token], outputs: &[Token]) -> Vec<u8> {
    let inputs = inputs.iter().map(|&token| input_word(token));
    let outputs = outputs.iter().map(|&token| output_word(token));
    let words: Vec<u32> = [instant_word(status)].into_iter().chain(inputs).chain(outputs).collect();
    to_bytes(&words)
}

#[derive(Clone, Copy, PartialEq, Eq)]
pub enum Kept {
    List,
    Journal,
}

/// The lowest word that is against the form of a list or journal, or has a token T or above.
pub fn lowest_fault(kept: Kept, bytes: &[u8], tokens: usize) -> Option<usize> {
    let words = words(bytes);
    (0..words.len()).find(|&at| !is_in_form(kept, at.checked_sub(1).map(|before| words[before]), words[at], tokens))
}

/// Judges a word by the one before it, which is in its form.
fn is_in_form(kept: Kept, before: Option<u32>, word: u32, tokens: usize) -> bool {
    match kind(word) {
        12 => is_instant_word(kept, word),
        13 => before.is_some_and(|before| may_follow(before, word, &[12])) && names_token(word, tokens),
        14 if kept == Kept::Journal => {
            before.is_some_and(|before| may_follow(before, word, &[12, 13])) && names_token(word, tokens)
        }
        _ => false,
    }
}

fn is_instant_word(kept: Kept, word: u32) -> bool {
    match kept {
        Kept::List => word == instant_word(0),
        Kept::Journal => (0..3).any(|status| word == instant_word(status)),
    }
}

/// A token word follows one of its own kind with a lower token, or one of the kinds that stand before its kind.
fn may_follow(before: u32, word: u32, kinds_before: &[u32]) -> bool {
    kinds_before.contains(&kind(before)) || (kind(before) == kind(word) && before < word)
}

fn names_token(word: u32, tokens: usize) -> bool {
    let token = word & 0x0FFF_FFFF;
    (token as usize) < tokens
}

/// The instants of a list or journal in its form: the words of each.
pub fn instants(bytes: &[u8]) -> Vec<Range<usize>> {
    let words = words(bytes);
    let starts: Vec<usize> = (0..words.len()).filter(|&at| kind(words[at]) == 12).collect();
    let ends = starts.iter().copied().skip(1).chain([words.len()]);
    starts.iter().zip(ends).map(|(&start, end)| start..end).collect()
}

/// The input tokens of each instant of a list or journal in its form.
pub fn inputs(bytes: &[u8]) -> Vec<Vec<Token>> {
    let words = words(bytes);
    let inputs_of = |instant: Range<usize>| {
        let inputs = words[instant].iter().filter(|&&word| kind(word) == 13);
        inputs.map(|&word| (word & 0xFF) as usize).collect()
    };
    instants(bytes).into_iter().map(inputs_of).collect()
}
