//! The orders in which compilers number agents. In all of them a body or half stands before its agent.

use crate::builder::{Agent, Form};

#[derive(Clone, Copy, PartialEq, Eq)]
pub enum Numbering {
    /// First half before second half, procedure after procedure.
    Natural,
    SecondHalfFirst,
    LastProcedureFirst,
    LeavesFirst,
}

struct Order<'a> {
    agents: &'a [Form],
    second_half_first: bool,
    met: Vec<bool>,
    order: Vec<Agent>,
}

impl Order<'_> {
    fn visit(&mut self, agent: Agent) {
        if std::mem::replace(&mut self.met[agent.0], true) {
            return;
        }
        let mut parts = self.agents[agent.0].parts();
        if self.second_half_first {
            parts.reverse();
        }
        for part in parts {
            self.visit(part);
        }
        self.order.push(agent);
    }
}

/// The agents that these roots reach, in the order of their numbers.
pub fn agents(agents: &[Form], roots: &[Agent], numbering: Numbering) -> Vec<Agent> {
    let second_half_first = numbering == Numbering::SecondHalfFirst;
    let mut order = Order { agents, second_half_first, met: vec![false; agents.len()], order: vec![] };
    let mut roots = roots.to_vec();
    if numbering == Numbering::LastProcedureFirst {
        roots.reverse();
    }
    for root in roots {
        order.visit(root);
    }
    let mut order = order.order;
    if numbering == Numbering::LeavesFirst {
        let heights = heights(agents, &order);
        order.sort_by_key(|agent| heights[agent.0]);
    }
    order
}

/// How many agents stand one under the other below each agent, at most. Parts stand before their agents in the order.
fn heights(agents: &[Form], order: &[Agent]) -> Vec<usize> {
    let mut heights = vec![0; agents.len()];
    for agent in order {
        let parts = agents[agent.0].parts();
        heights[agent.0] = parts.iter().map(|part| heights[part.0] + 1).max().unwrap_or(0);
    }
    heights
}
