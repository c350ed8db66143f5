//! The scratch of an instant, as document 02 tells it: one bit for each agent reduced, from which the count is taken.

#[cfg(test)]
mod tests;

use crate::decoded::Agent;
use crate::lent::SCRATCH_BYTES;

/// Agent i is bit i mod 8 of byte i div 8.
#[derive(Clone, PartialEq, Eq, Hash, Debug)]
pub struct Scratch([u8; SCRATCH_BYTES]);

impl Scratch {
    pub fn cleared() -> Scratch {
        Scratch([0; SCRATCH_BYTES])
    }

    pub fn mark(&mut self, agent: Agent) {
        self.0[agent / 8] |= 1 << (agent % 8);
    }

    /// How many bits are set.
    pub fn count(&self) -> u32 {
        self.0.iter().map(|byte| byte.count_ones()).sum()
    }

    pub fn bytes(&self) -> Vec<u8> {
        self.0.to_vec()
    }
}
