//! Scores made from the calls between their procedures, guarded and unguarded.

use crate::answer::{refused, ACCEPTED};
use crate::generate::{self, Score, Trial};
use crate::random::Random;
use crate::words;

struct Call {
    from: u32,
    to: u32,
    guarded: bool,
}

/// The calls that a score is to have.
struct Calls {
    procedures: u32,
    list: Vec<Call>,
}

impl Calls {
    fn new(procedures: u32) -> Calls {
        Calls { procedures, list: Vec::new() }
    }

    fn unguarded(&mut self, from: u32, to: u32) {
        self.list.push(Call { from, to, guarded: false });
    }

    fn guarded(&mut self, from: u32, to: u32) {
        self.list.push(Call { from, to, guarded: true });
    }

    /// Guarded calls anywhere: they make no circle.
    fn scatter_guarded(&mut self, random: &mut Random) {
        for _ in 0..random.below(1 + self.procedures / 2) {
            let (from, to) = (random.below(self.procedures), random.below(self.procedures));
            self.guarded(from, to);
        }
    }

    /// Each procedure calls the next one unguarded.
    fn chain(&mut self, procedures: &[u32]) {
        for pair in procedures.windows(2) {
            self.unguarded(pair[0], pair[1]);
        }
    }

    /// A chain whose last procedure calls its first.
    fn circle(&mut self, procedures: &[u32]) {
        self.chain(procedures);
        self.unguarded(procedures[procedures.len() - 1], procedures[0]);
    }

    /// Unguarded calls, some of them, from procedures to ones that stand later: they make no circle.
    fn onward(&mut self, random: &mut Random, procedures: &[u32]) {
        for at in 1..procedures.len() {
            if !random.one_in(3) {
                let from = random.pick(&procedures[..at]);
                self.unguarded(from, procedures[at]);
            }
        }
    }

    /// Some of the procedures lead to the circle or the chain, and it leads to the others.
    fn surround(&mut self, random: &mut Random, others: &[u32], ring: &[u32]) {
        let (inward, outward) = others.split_at(random.below(others.len() as u32 + 1) as usize);
        self.onward(random, inward);
        self.onward(random, outward);
        for &procedure in inward {
            if random.one_in(2) {
                self.unguarded(procedure, random.pick(ring));
            }
        }
        for &procedure in outward {
            if random.one_in(2) {
                self.unguarded(random.pick(ring), procedure);
            }
        }
    }

    fn score(mut self, random: &mut Random) -> Score {
        random.shuffle(&mut self.list);
        Writer::new(random, &self).write(&self)
    }
}

/// Writes agents for calls: each call stands at the end of a path of parallel and when, from its procedure's root.
struct Writer<'a> {
    random: &'a mut Random,
    tokens: u32,
    longest: u32,
    agents: Vec<u32>,
    /// Agents that call nothing unguarded.
    quiet: Vec<u32>,
    /// Agents that call just one procedure unguarded, and that procedure.
    calling: Vec<(u32, u32)>,
}

impl Writer<'_> {
    fn new<'a>(random: &'a mut Random, calls: &Calls) -> Writer<'a> {
        let tokens = random.between(1, 256);
        let first = generate::leaf(random, tokens);
        Writer {
            random,
            tokens,
            longest: longest_path(calls.list.len() as u32),
            agents: vec![first],
            quiet: vec![0],
            calling: Vec::new(),
        }
    }

    fn write(mut self, calls: &Calls) -> Score {
        let mut roots = vec![None; calls.procedures as usize];
        for call in &calls.list {
            let path = self.path(call);
            let root = &mut roots[call.from as usize];
            *root = Some(match *root {
                None => path,
                Some(others) => self.push(words::parallel(others, path)),
            });
        }
        let roots = roots.into_iter().map(|root| root.unwrap_or_else(|| self.random.pick(&self.quiet)));
        Score {
            procedures: roots.map(words::procedure).collect(),
            tokens: self.tokens,
            ports: generate::ports(self.random, self.tokens),
            rules: (0..self.random.below(4)).map(|_| generate::rule_or_fact(self.random, self.tokens)).collect(),
            agents: self.agents,
        }
    }

    fn push(&mut self, word: u32) -> u32 {
        self.agents.push(word);
        self.agents.len() as u32 - 1
    }

    /// The first agent of a path to a call.
    fn path(&mut self, call: &Call) -> u32 {
        let steps = if self.random.one_in(3) { 0 } else { self.random.below(self.longest + 1) };
        let last = self.last_agent(call.to);
        if !call.guarded {
            let first = self.unguarded_steps(last, steps);
            self.calling.push((first, call.to));
            return first;
        }
        let below_guard = self.random.below(steps + 1);
        let body = self.unguarded_steps(last, below_guard);
        let guard = self.guard(body);
        let first = self.unguarded_steps(guard, steps - below_guard);
        self.quiet.extend([guard, first]);
        first
    }

    /// An agent that calls the procedure unguarded: a new call, or an agent shared with another path.
    fn last_agent(&mut self, procedure: u32) -> u32 {
        let shared = self.calling.iter().find(|agent| agent.1 == procedure);
        match shared {
            Some(&(agent, _)) if self.random.one_in(4) => agent,
            _ => self.push(words::call(procedure)),
        }
    }

    fn unguarded_steps(&mut self, last: u32, steps: u32) -> u32 {
        (0..steps).fold(last, |body, _| self.unguarded_step(body))
    }

    fn unguarded_step(&mut self, body: u32) -> u32 {
        let other = self.random.pick(&self.quiet);
        let word = match self.random.below(6) {
            0 => words::parallel(body, body),
            1 => words::parallel(body, other),
            2 => words::parallel(other, body),
            _ => words::when(body, self.random.below(self.tokens)),
        };
        self.push(word)
    }

    fn guard(&mut self, body: u32) -> u32 {
        let word =
            if self.random.one_in(2) { words::next(body) } else { words::unless(body, self.random.below(self.tokens)) };
        self.push(word)
    }
}

/// The longest path for which the agents of all calls are at most 1,024: beside its steps, a call may take three.
fn longest_path(calls: u32) -> u32 {
    match calls {
        0 => 0,
        _ => (1023 - 3 * calls) / calls,
    }
}

fn lowest(procedures: &[u32]) -> u64 {
    u64::from(*procedures.iter().min().expect("a circle has a procedure"))
}

/// The length of a circle or chain, for each score in turn: 1, 2, 64, or any.
fn length(random: &mut Random, index: u64) -> u32 {
    match index % 4 {
        0 => 1,
        1 => 2,
        2 => 64,
        _ => random.between(1, 64),
    }
}

/// Procedures in a random order, at least as many as asked for; often no more.
fn procedures(random: &mut Random, least: u32) -> Vec<u32> {
    let count = if random.one_in(4) { least } else { random.between(least, 64) };
    random.order(count)
}

/// One circle, which other procedures lead to and which leads to others.
pub fn one_circle(random: &mut Random, index: u64) -> Trial {
    let length = length(random, index);
    let order = procedures(random, length);
    let (ring, others) = order.split_at(length as usize);
    let mut calls = Calls::new(order.len() as u32);
    calls.circle(ring);
    calls.surround(random, others, ring);
    calls.scatter_guarded(random);
    Trial::known(calls.score(random).bytes(), refused(7, lowest(ring)))
}

/// As one circle, but a next or an unless stands before one of its calls.
pub fn guarded_circle(random: &mut Random, index: u64) -> Trial {
    let length = length(random, index);
    let order = procedures(random, length);
    let (ring, others) = order.split_at(length as usize);
    let mut calls = Calls::new(order.len() as u32);
    calls.chain(ring);
    calls.guarded(ring[ring.len() - 1], ring[0]);
    calls.surround(random, others, ring);
    calls.scatter_guarded(random);
    Trial::known(calls.score(random).bytes(), ACCEPTED)
}

/// Two circles; calls may lead from the first to the second.
pub fn two_circles(random: &mut Random, _: u64) -> Trial {
    let (one, other) = (random.between(1, 32), random.between(1, 32));
    let order = procedures(random, one + other);
    let (first, rest) = order.split_at(one as usize);
    let (second, others) = rest.split_at(other as usize);
    let mut calls = Calls::new(order.len() as u32);
    calls.circle(first);
    calls.circle(second);
    if random.one_in(2) {
        calls.unguarded(random.pick(first), random.pick(second));
    }
    calls.surround(random, others, second);
    let answer = refused(7, lowest(&order[..(one + other) as usize]));
    Trial::known(calls.score(random).bytes(), answer)
}

/// A chain with calls that leap onward.
pub fn chain(random: &mut Random, index: u64) -> Trial {
    let length = length(random, index);
    let order = procedures(random, length);
    let mut calls = Calls::new(order.len() as u32);
    calls.chain(&order[..length as usize]);
    calls.onward(random, &order);
    calls.scatter_guarded(random);
    Trial::known(calls.score(random).bytes(), ACCEPTED)
}

/// A chain whose last procedure calls one of the chain, so that the procedures before that one only lead to a circle.
pub fn chain_into_circle(random: &mut Random, index: u64) -> Trial {
    let length = length(random, index);
    let order = procedures(random, length);
    let (lead, ring) = order.split_at(random.below(length) as usize);
    let ring = &ring[..length as usize - lead.len()];
    let mut calls = Calls::new(order.len() as u32);
    calls.chain(&order[..length as usize]);
    calls.unguarded(ring[ring.len() - 1], ring[0]);
    calls.scatter_guarded(random);
    Trial::known(calls.score(random).bytes(), refused(7, lowest(ring)))
}

/// Calls between any procedures.
pub fn any_calls(random: &mut Random, _: u64) -> Trial {
    Trial::open(any_score(random).bytes())
}

fn any_score(random: &mut Random) -> Score {
    let procedures = random.between(1, 64);
    let mut calls = Calls::new(procedures);
    for _ in 0..random.below(2 * procedures) {
        let (from, to) = (random.below(procedures), random.below(procedures));
        if random.one_in(3) {
            calls.guarded(from, to);
        } else {
            calls.unguarded(from, to);
        }
    }
    calls.score(random)
}

/// Calls between any procedures, and words damaged besides.
pub fn any_calls_damaged(random: &mut Random, _: u64) -> Trial {
    let mut words = any_score(random).words();
    for _ in 0..random.between(1, 3) {
        generate::damage_any(random, &mut words);
    }
    Trial::open(words::to_bytes(&words))
}
