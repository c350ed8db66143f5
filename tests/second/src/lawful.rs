//! Calls with nothing wrong about them: buffers of the right lengths, the written ones dirty.

use crate::calls::{InstantLent, RunLent};
use crate::decoded::Decoded;
use crate::lent::*;
use crate::random::Random;
use crate::scenes;

pub fn instant(random: &mut Random, score: Vec<u8>) -> InstantLent {
    let decoded = Decoded::new(&score);
    InstantLent {
        state: scenes::lawful_state(random, &decoded),
        input: scenes::lawful_input(random, &decoded),
        store: scenes::dirt(random, MAP_BYTES),
        output: scenes::dirt(random, MAP_BYTES),
        scratch: scenes::dirt(random, SCRATCH_BYTES),
        score,
    }
}

/// A run of at most so many instants, with room enough in the journal.
pub fn run(random: &mut Random, score: Vec<u8>, most_instants: u32) -> RunLent {
    let decoded = Decoded::new(&score);
    let inputs = scenes::list(random, &decoded, most_instants);
    let instants = instants(&inputs).len();
    let room = inputs.len() + instants * 4 * decoded.ports.clone().count() + random.below(9) as usize;
    RunLent {
        state: scenes::lawful_state(random, &decoded),
        inputs,
        journal: scenes::dirt(random, room),
        scratch: scenes::dirt(random, SCRATCH_BYTES),
        score,
    }
}
