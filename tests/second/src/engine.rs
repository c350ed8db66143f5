//! The order of an instant, step by step as the document tells it: copies in a multiset, any one of them reduced.

use crate::decoded::{Agent, Decoded, Form, Rule, Token};
use crate::every_order::Steps;
use crate::random::Random;
use crate::scratch::Scratch;
use crate::weight::Weights;
use std::collections::BTreeSet;
use std::ops::RangeInclusive;

/// One copy in the multiset: an agent, or the tell of an input token.
#[derive(Clone, Copy, PartialEq, Eq, PartialOrd, Ord, Hash, Debug)]
pub enum Copied {
    Agent(Agent),
    Input(Token),
}

/// For each token whether the store holds it.
pub type Store = Vec<bool>;

/// How a finished order ends. Awake next are copies, in rising order. The agents reduced are kept twice, as a set and
/// as the bits of the scratch before they are cleared.
#[derive(Clone, PartialEq, Eq, Hash, Debug)]
pub enum End {
    Abort,
    Quiet { store: Store, awake: Vec<Agent>, reduced: BTreeSet<Agent>, scratch: Scratch },
}

impl End {
    pub fn status(&self) -> u32 {
        match self {
            End::Abort => 2,
            End::Quiet { store, .. } => u32::from(store[0]),
        }
    }
}

/// The output of a quiet instant: the store's tokens from lowest to highest port, or nothing where the clash is in it.
pub fn output(store: &Store, ports: &RangeInclusive<Token>) -> Vec<Token> {
    if store[0] {
        return vec![];
    }
    ports.clone().filter(|&token| store[token]).collect()
}

#[derive(Clone)]
pub struct Order<'a> {
    score: &'a Decoded,
    pub copies: Vec<Copied>,
    pub store: Store,
    pub reduced: BTreeSet<Agent>,
    pub scratch: Scratch,
    pub aborted: bool,
    pub steps: u64,
    /// Where copies are not kept: the agents that have been in the multiset.
    joined: Option<BTreeSet<Agent>>,
}

/// Passes over the rules until nothing is added; facts, which have no premise, are added to any store. A store that
/// holds the clash holds all tokens.
pub fn close(rules: &[Rule], store: &mut Store) {
    loop {
        let before = store.clone();
        for rule in rules {
            if rule.premises.iter().all(|&premise| store[premise]) {
                store[rule.conclusion] = true;
            }
        }
        if store[0] {
            store.fill(true);
        }
        if *store == before {
            return;
        }
    }
}

impl Order<'_> {
    pub fn start<'a>(score: &'a Decoded, agents: &[Agent], inputs: &[Token]) -> Order<'a> {
        let mut store = vec![false; score.tokens];
        close(&score.rules, &mut store);
        let agents = agents.iter().map(|&agent| Copied::Agent(agent));
        let inputs = inputs.iter().map(|&token| Copied::Input(token));
        Order {
            score,
            copies: agents.chain(inputs).collect(),
            store,
            reduced: BTreeSet::new(),
            scratch: Scratch::cleared(),
            aborted: false,
            steps: 0,
            joined: None,
        }
    }

    /// Keeps a set of agents in place of copies: an agent joins once. For orders that are too long to follow.
    fn without_copies(mut self) -> Self {
        let before = std::mem::take(&mut self.copies);
        self.joined = Some(BTreeSet::new());
        for copy in before {
            match copy {
                Copied::Agent(agent) => self.join(agent),
                Copied::Input(_) => self.copies.push(copy),
            }
        }
        self
    }

    fn join(&mut self, agent: Agent) {
        let is_new = self.joined.as_mut().is_none_or(|joined| joined.insert(agent));
        if is_new {
            self.copies.push(Copied::Agent(agent));
        }
    }

    pub fn can_reduce(&self, copy: Copied) -> bool {
        match copy {
            Copied::Input(_) => true,
            Copied::Agent(agent) => match self.score.agents[agent] {
                Form::Next { .. } => false,
                Form::When { token, .. } | Form::Unless { token, .. } => self.store[token],
                _ => true,
            },
        }
    }

    /// One step: reduces the copy at this place.
    pub fn reduce(&mut self, place: usize) {
        self.steps += 1;
        match self.copies.swap_remove(place) {
            Copied::Input(token) => self.tell(token),
            Copied::Agent(agent) => {
                self.reduced.insert(agent);
                self.scratch.mark(agent);
                self.reduce_agent(self.score.agents[agent]);
            }
        }
    }

    fn reduce_agent(&mut self, form: Form) {
        match form {
            Form::Skip | Form::Unless { .. } => {}
            Form::Abort => self.abort(),
            Form::Tell(token) => self.tell(token),
            Form::Parallel(half, other) => {
                self.join(half);
                self.join(other);
            }
            Form::When { body, .. } => self.join(body),
            Form::Call { procedure } => self.join(self.score.roots[procedure]),
            Form::Next { .. } => panic!("a next is not reduced"),
        }
    }

    fn tell(&mut self, token: Token) {
        self.store[token] = true;
        close(&self.score.rules, &mut self.store);
    }

    fn abort(&mut self) {
        self.store.fill(false);
        self.copies.clear();
        self.aborted = true;
    }

    /// Any one copy that can be reduced: the first from a random place on.
    fn pick(&self, random: &mut Random) -> Option<usize> {
        let count = self.copies.len();
        let first = random.below(count.max(1) as u32) as usize;
        (0..count).map(|step| (first + step) % count).find(|&place| self.can_reduce(self.copies[place]))
    }

    fn finish(mut self, random: &mut Random) -> Self {
        while let Some(place) = self.pick(random) {
            self.reduce(place);
        }
        self
    }

    /// The end of an order that is finished.
    pub fn end(&self) -> End {
        if self.aborted {
            return End::Abort;
        }
        let mut awake: Vec<Agent> = self.copies.iter().filter_map(|&copy| self.woken_by(copy)).collect();
        awake.sort_unstable();
        let (store, reduced, scratch) = (self.store.clone(), self.reduced.clone(), self.scratch.clone());
        End::Quiet { store, awake, reduced, scratch }
    }

    fn woken_by(&self, copy: Copied) -> Option<Agent> {
        match copy {
            Copied::Input(_) => None,
            Copied::Agent(agent) => match self.score.agents[agent] {
                Form::Next { body } | Form::Unless { body, .. } => Some(body),
                _ => None,
            },
        }
    }
}

impl Steps for Order<'_> {
    /// The copies, the store, and the agents reduced before.
    type Point = (Vec<Copied>, Store, BTreeSet<Agent>);
    type End = End;

    fn point(&self) -> Self::Point {
        let mut copies = self.copies.clone();
        copies.sort_unstable();
        (copies, self.store.clone(), self.reduced.clone())
    }

    fn weight(&self) -> u64 {
        let mut weights = Weights::new(self.score);
        let weight_of = |&copy: &Copied| match copy {
            Copied::Agent(agent) => weights.of(agent),
            Copied::Input(_) => 1,
        };
        self.copies.iter().map(weight_of).fold(0, u64::saturating_add)
    }

    fn onward(&self) -> Vec<Self> {
        let reduced_at = |place| {
            let mut longer = self.clone();
            longer.reduce(place);
            longer
        };
        (0..self.copies.len()).filter(|&place| self.can_reduce(self.copies[place])).map(reduced_at).collect()
    }

    fn end(&self) -> End {
        Order::end(self)
    }
}

/// Heavier orders are followed without copies.
pub const HEAVIEST_FOLLOWED: u64 = 5_000;

/// A finished order of an instant, with random steps.
pub fn finished<'a>(score: &'a Decoded, agents: &[Agent], inputs: &[Token], random: &mut Random) -> Order<'a> {
    let weight = Weights::new(score).of_order(agents, inputs.len());
    let order = Order::start(score, agents, inputs);
    if weight > HEAVIEST_FOLLOWED {
        return order.without_copies().finish(random);
    }
    let order = order.finish(random);
    assert!(order.steps <= weight, "an order of {} steps has weight {weight}", order.steps);
    order
}

/// The end of an instant, by a random order.
pub fn instant(score: &Decoded, agents: &[Agent], inputs: &[Token], random: &mut Random) -> End {
    finished(score, agents, inputs, random).end()
}

pub fn instant_without_copies(score: &Decoded, agents: &[Agent], inputs: &[Token], random: &mut Random) -> End {
    Order::start(score, agents, inputs).without_copies().finish(random).end()
}
