//! Valid drafts in which every agent lies on a path from some root: nested acts, of watches, nexts and unlesses above
//! all, with parts that are shared.

use crate::draft::scenes::{self, Watching};
use crate::generate::{self, Score};
use crate::random::Random;
use crate::scenes::{rates, rule, token, Rates};
use crate::words;

/// Writes the procedures from the last to the first. Unguarded, each calls only later ones.
struct Writer<'a> {
    random: &'a mut Random,
    tokens: u32,
    rates: Rates,
    watching: Watching,
    procedures: u32,
    agents: Vec<u32>,
}

/// Where an act stands: in which procedure, and whether a next or an unless is before it.
#[derive(Clone, Copy)]
struct Place {
    procedure: u32,
    guarded: bool,
}

impl Writer<'_> {
    fn push(&mut self, word: u32) -> u32 {
        self.agents.push(word);
        self.agents.len() as u32 - 1
    }

    fn token(&mut self) -> u32 {
        token(self.random, self.tokens, 16)
    }

    fn watch_token(&mut self) -> u32 {
        self.random.pick(&self.watching.tokens)
    }

    /// An act of at most so many levels; its agent.
    fn act(&mut self, levels: u32, place: Place) -> u32 {
        if self.random.one_in(8) {
            if let Some(shared) = self.shared(place) {
                return shared;
            }
        }
        if levels == 0 || self.random.one_in(10) {
            return self.last(place);
        }
        let onward = Place { guarded: true, ..place };
        let word = match self.random.below(12) {
            0..=3 => words::parallel(self.act(levels - 1, place), self.act(levels - 1, place)),
            4 => words::when(self.act(levels - 1, place), self.token()),
            5..=7 => words::watch(self.act(levels - 1, place), self.watch_token()),
            8 | 9 => words::next(self.act(levels - 1, onward)),
            10 => words::unless(self.act(levels - 1, onward), self.token()),
            _ => words::unless(self.act(levels - 1, onward), self.watch_token()),
        };
        self.push(word)
    }

    /// A call, a tell, a skip or, where there are any, an abort.
    fn last(&mut self, place: Place) -> u32 {
        let word = match self.random.below(12) {
            0..=4 if place.guarded => words::call(self.random.below(self.procedures)),
            0..=4 if place.procedure + 1 < self.procedures => {
                words::call(self.random.between(place.procedure + 1, self.procedures - 1))
            }
            5 if self.rates.aborts => words::abort(),
            6 => words::skip(),
            _ => words::tell(token(self.random, self.tokens, 2 * self.rates.clash)),
        };
        self.push(word)
    }

    /// An agent written before that may stand here too.
    fn shared(&mut self, place: Place) -> Option<u32> {
        let calls = generate::unguarded_calls(&self.agents);
        let earlier_or_own = (2 << place.procedure) - 1;
        let shared = (0..8).map(|_| self.random.below(1 + calls.len() as u32) as usize);
        let mut shared = shared.filter(|&agent| agent < calls.len());
        shared.find(|&agent| place.guarded || calls[agent] & earlier_or_own == 0).map(|agent| agent as u32)
    }
}

/// A draft of so many procedures, each an act of so many levels.
fn write(random: &mut Random, tokens: u32, procedures: u32, levels: u32) -> Score {
    let (rates, watching) = (rates(random), scenes::watching(random, tokens));
    let mut writer = Writer { random, tokens, rates, watching, procedures, agents: vec![] };
    let mut roots = vec![0; procedures as usize];
    for procedure in (0..procedures).rev() {
        let levels = writer.random.between(levels / 2, levels);
        roots[procedure as usize] = writer.act(levels, Place { procedure, guarded: false });
    }
    let Writer { random, agents, watching, .. } = writer;
    let mut draft = Score {
        tokens,
        ports: generate::ports(random, tokens),
        procedures: roots.into_iter().map(words::procedure).collect(),
        rules: (0..random.below(6)).map(|_| rule(random, tokens, rates)).collect(),
        agents,
    };
    scenes::call_again(random, &mut draft, &watching);
    draft
}

pub fn few(random: &mut Random) -> Vec<u8> {
    let (tokens, procedures) = (random.between(2, 5), random.between(1, 2));
    write(random, tokens, procedures, 3).bytes()
}

pub fn many(random: &mut Random) -> Vec<u8> {
    let (tokens, procedures) = (random.between(4, 16), random.between(1, 4));
    write(random, tokens, procedures, 8).bytes()
}
