//! What a listing has to say beside the agents themselves: where one is referred to, and where its number does not
//! follow from its place. Agents are numbered in the order of the text, a body or half before its agent; a number that
//! is stated is where numbering goes on.

use crate::score::{Procedure, Score};

pub struct Layout {
    /// Agents that are used at a second place, or before they are written.
    pub referred: Vec<bool>,
    /// Agents whose number is stated.
    pub numbered: Vec<bool>,
    /// For each procedure, the number that its first agent has, where that is stated.
    pub from: Vec<Option<usize>>,
    /// The agents, rising, that nothing leads to.
    pub unused: Vec<usize>,
    seen: Vec<bool>,
    next: usize,
}

impl Layout {
    pub fn of(score: &Score) -> Layout {
        let agents = score.agents.len();
        let mut layout = Layout {
            referred: vec![false; agents],
            numbered: vec![false; agents],
            from: Vec::new(),
            unused: Vec::new(),
            seen: vec![false; agents],
            next: 0,
        };
        for procedure in &score.procedures {
            let from = layout.procedure(score, *procedure);
            layout.from.push(from);
        }
        let mut inner = vec![false; agents];
        for (agent, word) in score.agents.iter().enumerate() {
            word.inner().filter(|&part| part < agent).for_each(|part| inner[part] = true);
        }
        for agent in 0..agents {
            if !layout.seen[agent] && !inner[agent] {
                layout.unused.push(agent);
                layout.visit(score, agent);
            }
        }
        layout
    }

    fn procedure(&mut self, score: &Score, procedure: Procedure) -> Option<usize> {
        let Procedure::Root(root) = procedure else { return None };
        if !self.writes(root) {
            return None;
        }
        let first = self.first(score, root);
        let from = (first != self.next).then_some(first);
        self.next = first;
        self.visit(score, root);
        from
    }

    /// Whether an agent is written where it is used; it is referred to otherwise.
    fn writes(&mut self, agent: usize) -> bool {
        match self.seen.get(agent) {
            Some(false) => true,
            Some(true) => {
                self.referred[agent] = true;
                false
            }
            None => false,
        }
    }

    /// The agent, under one that is written, that is numbered first.
    fn first(&self, score: &Score, agent: usize) -> usize {
        match score.agents[agent].inner().find(|&part| part < agent && !self.seen[part]) {
            Some(part) => self.first(score, part),
            None => agent,
        }
    }

    fn visit(&mut self, score: &Score, agent: usize) {
        self.seen[agent] = true;
        for part in score.agents[agent].inner() {
            if part >= agent {
                self.referred.get_mut(part).into_iter().for_each(|referred| *referred = true);
            } else if self.writes(part) {
                self.visit(score, part);
            }
        }
        self.numbered[agent] = agent != self.next;
        self.next = agent + 1;
    }
}
