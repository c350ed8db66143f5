//! Weights, by the document's equations. Those too large for 64 bits count as the largest number.

use crate::decoded::{Agent, Decoded, Form};

pub struct Weights<'a> {
    score: &'a Decoded,
    known: Vec<Option<u64>>,
}

impl Weights<'_> {
    pub fn new(score: &Decoded) -> Weights<'_> {
        Weights { score, known: vec![None; score.agents.len()] }
    }

    pub fn of(&mut self, agent: Agent) -> u64 {
        if let Some(weight) = self.known[agent] {
            return weight;
        }
        let weight = match self.score.agents[agent] {
            Form::Next { .. } => 0,
            Form::Skip | Form::Abort | Form::Tell(_) | Form::Unless { .. } => 1,
            Form::When { body, .. } => self.of(body).saturating_add(1),
            Form::Parallel(half, other) => self.of(half).saturating_add(self.of(other)).saturating_add(1),
            Form::Call { procedure } => self.of(self.score.roots[procedure]).saturating_add(1),
        };
        self.known[agent] = Some(weight);
        weight
    }

    /// The weight of all copies and input tokens that an order starts with.
    pub fn of_order(&mut self, copies: &[Agent], inputs: usize) -> u64 {
        copies.iter().fold(inputs as u64, |sum, &agent| sum.saturating_add(self.of(agent)))
    }
}
