//! The order of an instant of a draft, as the draft's own definition tells it: each copy in the multiset carries the
//! watch tokens that it stands under, and hands them on.

use crate::decoded::{Agent, Form as Plain, Token};
use crate::draft::{Draft, Form};
use crate::engine::{close, Store};
use crate::every_order::Steps;
use crate::random::Random;
use crate::weight::Weights;
use std::collections::BTreeSet;

/// An agent, and the watch tokens that it stands under.
#[derive(Clone, PartialEq, Eq, PartialOrd, Ord, Hash, Debug)]
pub struct Watched {
    pub agent: Agent,
    pub under: BTreeSet<Token>,
}

/// One copy in the multiset: an agent with its tokens, or the tell of an input token.
#[derive(Clone, PartialEq, Eq, PartialOrd, Ord, Hash, Debug)]
pub enum Copied {
    Agent(Watched),
    Input(Token),
}

/// How a finished order ends. Awake next are copies, in rising order; stopped are the copies of a next or unless still
/// there that have a token of theirs in the store.
#[derive(Clone, PartialEq, Eq, Hash, Debug)]
pub enum End {
    Abort,
    Quiet { store: Store, awake: Vec<Watched>, stopped: Vec<Watched> },
}

impl End {
    pub fn status(&self) -> u32 {
        match self {
            End::Abort => 2,
            End::Quiet { store, .. } => u32::from(store[0]),
        }
    }
}

#[derive(Clone)]
pub struct Order<'a> {
    draft: &'a Draft,
    pub copies: Vec<Copied>,
    pub store: Store,
    pub aborted: bool,
    pub steps: u64,
    /// Where copies are not kept: the agents that have been in the multiset, each with its tokens.
    joined: Option<BTreeSet<Watched>>,
}

impl Order<'_> {
    pub fn start<'a>(draft: &'a Draft, agents: &[Watched], inputs: &[Token]) -> Order<'a> {
        let mut store = vec![false; draft.score.tokens];
        close(&draft.score.rules, &mut store);
        let agents = agents.iter().cloned().map(Copied::Agent);
        let inputs = inputs.iter().copied().map(Copied::Input);
        Order { draft, copies: agents.chain(inputs).collect(), store, aborted: false, steps: 0, joined: None }
    }

    /// Keeps a set in place of copies: an agent with the same tokens joins once. For orders that are too long to follow.
    pub fn without_copies(mut self) -> Self {
        let before = std::mem::take(&mut self.copies);
        self.joined = Some(BTreeSet::new());
        for copy in before {
            match copy {
                Copied::Agent(Watched { agent, under }) => self.join(agent, under),
                Copied::Input(_) => self.copies.push(copy),
            }
        }
        self
    }

    fn join(&mut self, agent: Agent, under: BTreeSet<Token>) {
        let watched = Watched { agent, under };
        let is_new = self.joined.as_mut().is_none_or(|joined| joined.insert(watched.clone()));
        if is_new {
            self.copies.push(Copied::Agent(watched));
        }
    }

    pub fn can_reduce(&self, copy: &Copied) -> bool {
        let Copied::Agent(watched) = copy else { return true };
        match self.draft.form(watched.agent) {
            Form::Plain(Plain::Next { .. }) => false,
            Form::Plain(Plain::When { token, .. } | Plain::Unless { token, .. }) => self.store[token],
            _ => true,
        }
    }

    /// One step: reduces the copy at this place.
    pub fn reduce(&mut self, place: usize) {
        self.steps += 1;
        match self.copies.swap_remove(place) {
            Copied::Input(token) => self.tell(token),
            Copied::Agent(Watched { agent, under }) => match self.draft.form(agent) {
                Form::Watch { body, token } => self.join(body, with(under, token)),
                Form::Plain(form) => self.reduce_plain(form, under),
            },
        }
    }

    /// The tokens are handed on to halves, bodies and roots.
    fn reduce_plain(&mut self, form: Plain, under: BTreeSet<Token>) {
        match form {
            Plain::Skip | Plain::Unless { .. } => {}
            Plain::Abort => self.abort(),
            Plain::Tell(token) => self.tell(token),
            Plain::Parallel(half, other) => {
                self.join(half, under.clone());
                self.join(other, under);
            }
            Plain::When { body, .. } => self.join(body, under),
            Plain::Call { procedure } => self.join(self.draft.score.roots[procedure], under),
            Plain::Next { .. } => panic!("a next is not reduced"),
        }
    }

    fn tell(&mut self, token: Token) {
        self.store[token] = true;
        close(&self.draft.score.rules, &mut self.store);
    }

    fn abort(&mut self) {
        self.store.fill(false);
        self.copies.clear();
        self.aborted = true;
    }

    /// Any one copy that can be reduced: the first from a random place on.
    fn pick(&self, random: &mut Random) -> Option<usize> {
        let count = self.copies.len();
        let first = random.below(count.max(1) as u32) as usize;
        (0..count).map(|step| (first + step) % count).find(|&place| self.can_reduce(&self.copies[place]))
    }

    pub fn finish(&mut self, random: &mut Random) -> End {
        while let Some(place) = self.pick(random) {
            self.reduce(place);
        }
        self.end()
    }

    /// The end of an order that is finished.
    pub fn end(&self) -> End {
        if self.aborted {
            return End::Abort;
        }
        let (mut stopped, mut awake): (Vec<Watched>, Vec<Watched>) =
            self.copies.iter().filter_map(|copy| self.waiting(copy)).partition(|watched| self.is_stopped(watched));
        awake.sort_unstable();
        stopped.sort_unstable();
        End::Quiet { store: self.store.clone(), awake, stopped }
    }

    /// The body of a next or unless, under its tokens.
    fn waiting(&self, copy: &Copied) -> Option<Watched> {
        let Copied::Agent(Watched { agent, under }) = copy else { return None };
        match self.draft.form(*agent) {
            Form::Plain(Plain::Next { body } | Plain::Unless { body, .. }) => {
                Some(Watched { agent: body, under: under.clone() })
            }
            _ => None,
        }
    }

    fn is_stopped(&self, watched: &Watched) -> bool {
        watched.under.iter().any(|&token| self.store[token])
    }
}

impl Steps for Order<'_> {
    /// The copies, the store, and whether it was aborted.
    type Point = (Vec<Copied>, Store, bool);
    type End = End;

    fn point(&self) -> Self::Point {
        let mut copies = self.copies.clone();
        copies.sort_unstable();
        (copies, self.store.clone(), self.aborted)
    }

    fn weight(&self) -> u64 {
        let mut weights = Weights::new(&self.draft.score);
        let weight_of = |copy: &Copied| match copy {
            Copied::Agent(watched) => weights.of(watched.agent),
            Copied::Input(_) => 1,
        };
        self.copies.iter().map(weight_of).fold(0, u64::saturating_add)
    }

    fn onward(&self) -> Vec<Self> {
        let reduced_at = |place| {
            let mut longer = self.clone();
            longer.reduce(place);
            longer
        };
        (0..self.copies.len()).filter(|&place| self.can_reduce(&self.copies[place])).map(reduced_at).collect()
    }

    fn end(&self) -> End {
        Order::end(self)
    }
}

fn with(mut under: BTreeSet<Token>, token: Token) -> BTreeSet<Token> {
    under.insert(token);
    under
}
