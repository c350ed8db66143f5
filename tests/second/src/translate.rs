//! The translation of a draft to a plain score, written from the document alone.

#[cfg(test)]
mod tests;
pub mod written;

use crate::decoded::{self, Agent, Token};
use crate::draft::{Draft, Form};
use crate::oracle;
use crate::words;
use std::collections::BTreeSet;

const MOST_TOKENS: usize = 256;
const MOST_AGENTS: usize = 1024;
const MOST_PROCEDURES: usize = 64;
const MOST_RULES: usize = 256;

/// A set of tokens as the sum of 2 to the power of each; the high half is compared first.
#[derive(Clone, Copy, PartialEq, Eq, PartialOrd, Ord, Debug)]
pub struct Set {
    high: u128,
    low: u128,
}

impl Set {
    pub const NONE: Set = Set { high: 0, low: 0 };

    pub fn with(mut self, token: Token) -> Set {
        match token {
            0..128 => self.low |= 1 << token,
            _ => self.high |= 1 << (token - 128),
        }
        self
    }

    fn has(self, token: Token) -> bool {
        self.with(token) == self
    }

    /// How many tokens it has.
    fn count(self) -> usize {
        (self.high.count_ones() + self.low.count_ones()) as usize
    }

    /// Its tokens, rising.
    pub fn tokens(self) -> Vec<Token> {
        (0..MOST_TOKENS).filter(|&token| self.has(token)).collect()
    }
}

/// An agent that is no watch, or a procedure, and the watch tokens that it stands under.
pub type Pair = (usize, Set);

/// What a path of bodies, halves and calls leads to.
enum Reference {
    Agent(Agent, Set),
    Procedure(usize, Set),
}

/// A reference to a watch goes on to its body with the token added.
fn past_watches(draft: &Draft, agent: Agent, set: Set) -> Pair {
    match draft.form(agent) {
        Form::Watch { body, token } => past_watches(draft, body, set.with(token)),
        Form::Plain(_) => (agent, set),
    }
}

/// The form of an agent that is no watch.
fn plain_form(draft: &Draft, agent: Agent) -> decoded::Form {
    match draft.form(agent) {
        Form::Watch { .. } => panic!("agent {agent} is a watch"),
        Form::Plain(form) => form,
    }
}

fn led_to_by(draft: &Draft, (agent, set): Pair) -> Vec<Reference> {
    use decoded::Form::*;
    match plain_form(draft, agent) {
        Skip | Abort | Tell(_) => vec![],
        Parallel(half, other) => vec![Reference::Agent(half, set), Reference::Agent(other, set)],
        When { body, .. } | Next { body } | Unless { body, .. } => vec![Reference::Agent(body, set)],
        Call { procedure } => vec![Reference::Procedure(procedure, set)],
    }
}

/// The pairs on paths from procedure 0.
struct Pairs {
    agents: BTreeSet<Pair>,
    procedures: BTreeSet<Pair>,
}

impl Pairs {
    /// Nothing at the first pair more than a score has agents or procedures.
    fn on_paths(draft: &Draft) -> Option<Pairs> {
        let mut pairs = Pairs { agents: BTreeSet::new(), procedures: BTreeSet::new() };
        let mut open = vec![Reference::Procedure(0, Set::NONE)];
        while let Some(reference) = open.pop() {
            open.extend(pairs.add(draft, reference));
            if pairs.agents.len() > MOST_AGENTS || pairs.procedures.len() > MOST_PROCEDURES {
                return None;
            }
        }
        Some(pairs)
    }

    /// Where a pair is new, what it leads to.
    fn add(&mut self, draft: &Draft, reference: Reference) -> Vec<Reference> {
        match reference {
            Reference::Procedure(procedure, set) => match self.procedures.insert((procedure, set)) {
                true => vec![Reference::Agent(draft.score.roots[procedure], set)],
                false => vec![],
            },
            Reference::Agent(agent, set) => {
                let pair = past_watches(draft, agent, set);
                match self.agents.insert(pair) {
                    true => led_to_by(draft, pair),
                    false => vec![],
                }
            }
        }
    }
}

/// The set that a next or an unless asks for. A next under no token asks for none.
fn asked_by(draft: &Draft, (agent, set): Pair) -> Option<Set> {
    match plain_form(draft, agent) {
        decoded::Form::Next { .. } if set != Set::NONE => Some(set),
        decoded::Form::Unless { token, .. } => Some(set.with(token)),
        _ => None,
    }
}

/// T, N, P and the number of rules.
#[derive(Clone, Copy, PartialEq, Eq, Debug)]
pub struct Sizes {
    pub tokens: usize,
    pub agents: usize,
    pub procedures: usize,
    pub rules: usize,
}

/// The plain score: its pairs in their order, and the sets that have a new token, in theirs.
struct Plain {
    draft: Draft,
    old_rules: Vec<u32>,
    agents: Vec<Pair>,
    procedures: Vec<Pair>,
    sets: Vec<Set>,
}

impl Plain {
    /// Nothing where the agents or the procedures pass their limits.
    fn new(draft: &[u8]) -> Option<Plain> {
        let words = oracle::words(draft);
        let draft = Draft::new(draft);
        let pairs = Pairs::on_paths(&draft)?;
        let asked: BTreeSet<Set> = pairs.agents.iter().filter_map(|&pair| asked_by(&draft, pair)).collect();
        Some(Plain {
            draft,
            old_rules: words[oracle::rule_places(&words)].to_vec(),
            agents: pairs.agents.into_iter().collect(),
            procedures: pairs.procedures.into_iter().collect(),
            sets: asked.into_iter().filter(|set| set.count() >= 2).collect(),
        })
    }

    fn sizes(&self) -> Sizes {
        Sizes {
            tokens: self.draft.score.tokens + self.sets.len(),
            agents: self.agents.len(),
            procedures: self.procedures.len(),
            rules: self.old_rules.len() + self.sets.iter().map(|set| set.count()).sum::<usize>(),
        }
    }

    fn fits(&self) -> bool {
        let sizes = self.sizes();
        sizes.tokens <= MOST_TOKENS
            && sizes.agents <= MOST_AGENTS
            && sizes.procedures <= MOST_PROCEDURES
            && sizes.rules <= MOST_RULES
    }

    /// The number of the agent that a reference under a set leads to.
    fn agent(&self, agent: Agent, set: Set) -> u32 {
        let pair = past_watches(&self.draft, agent, set);
        self.agents.binary_search(&pair).expect("a reference leads to a pair") as u32
    }

    fn procedure(&self, procedure: usize, set: Set) -> u32 {
        self.procedures.binary_search(&(procedure, set)).expect("a call leads to a pair") as u32
    }

    /// The token that stands for a set: its only one, or a new one.
    fn token(&self, set: Set) -> u32 {
        let token = match self.sets.binary_search(&set) {
            Ok(place) => self.draft.score.tokens + place,
            Err(_) => set.tokens()[0],
        };
        token as u32
    }

    fn agent_word(&self, pair: Pair) -> u32 {
        let (agent, set) = pair;
        let asked = asked_by(&self.draft, pair).map(|asked| self.token(asked));
        match plain_form(&self.draft, agent) {
            decoded::Form::Skip => words::skip(),
            decoded::Form::Abort => words::abort(),
            decoded::Form::Tell(token) => words::tell(token as u32),
            decoded::Form::Parallel(half, other) => words::parallel(self.agent(half, set), self.agent(other, set)),
            decoded::Form::When { body, token } => words::when(self.agent(body, set), token as u32),
            decoded::Form::Next { body } | decoded::Form::Unless { body, .. } => match asked {
                Some(token) => words::unless(self.agent(body, set), token),
                None => words::next(self.agent(body, set)),
            },
            decoded::Form::Call { procedure } => words::call(self.procedure(procedure, set)),
        }
    }

    fn new_rules(&self) -> impl Iterator<Item = u32> + '_ {
        let rule = |set: Set, member: Token| words::rule(self.token(set), member as u32, member as u32);
        self.sets.iter().flat_map(move |&set| set.tokens().into_iter().map(move |member| rule(set, member)))
    }

    fn words(&self) -> Vec<u32> {
        let sizes = self.sizes();
        let ports = &self.draft.score.ports;
        let head = words::head(sizes.tokens as u32, sizes.agents as u32, sizes.procedures as u32);
        let mut words = vec![head, words::ports(*ports.start() as u32, *ports.end() as u32)];
        words.extend(self.agents.iter().map(|&pair| self.agent_word(pair)));
        let root = |&(procedure, set): &Pair| self.agent(self.draft.score.roots[procedure], set);
        words.extend(self.procedures.iter().map(|pair| words::procedure(root(pair))));
        words.extend(&self.old_rules);
        words.extend(self.new_rules());
        words
    }
}

/// The plain score of a draft that the check accepts; nothing where it passes a size limit.
pub fn translate(draft: &[u8]) -> Option<Vec<u8>> {
    let plain = Plain::new(draft)?;
    plain.fits().then(|| words::to_bytes(&plain.words()))
}

/// The sizes of the plain score; nothing where its agents or procedures pass their limits.
pub fn sizes(draft: &[u8]) -> Option<Sizes> {
    Plain::new(draft).map(|plain| plain.sizes())
}

/// What the plain score's agents and procedures stand for, and the sets that its new tokens stand for.
pub struct Origins {
    pub agents: Vec<Pair>,
    pub procedures: Vec<Pair>,
    pub sets: Vec<Set>,
}

/// The origins in the plain score; nothing where its agents or procedures pass their limits.
pub fn origins(draft: &[u8]) -> Option<Origins> {
    let Plain { agents, procedures, sets, .. } = Plain::new(draft)?;
    Some(Origins { agents, procedures, sets })
}
