//! How many settings of switches end how, as document 02 tells it: each set of exactly k of the switches is tried from
//! the same state, its number aside, by an order of its own.

#[cfg(test)]
mod tests;

use crate::decoded::{Decoded, Token};
use crate::engine;
use crate::lent::Awake;
use crate::random::Random;

pub const MOST_SWITCHES: usize = 16;

/// What number 17 can be due to.
pub const FAULTS: [&str; 4] =
    ["17 for more than 16 switches", "17 for a switch repeated", "17 for a switch not in the score", "17 for k"];

/// The causes of number 17 that hold.
pub fn faults(score: &Decoded, switches: &[u8], k: u32) -> Vec<&'static str> {
    let is_repeated = |place: usize| switches[..place].contains(&switches[place]);
    let holds = [
        switches.len() > MOST_SWITCHES,
        (0..switches.len()).any(is_repeated),
        switches.iter().any(|&token| usize::from(token) >= score.tokens),
        k as usize > switches.len(),
    ];
    FAULTS.into_iter().zip(holds).filter(|(_, holds)| *holds).map(|(fault, _)| fault).collect()
}

/// The settings with exactly k switches pressed. Each is a set of places in the list, given by a number's bits.
pub fn settings(switches: &[Token], k: usize) -> Vec<Vec<Token>> {
    let pressed = |set: u32| (0..switches.len()).filter(move |place| set >> place & 1 == 1);
    let sets = (0..1 << switches.len()).filter(|&set| pressed(set).count() == k);
    sets.map(|set| pressed(set).map(|place| switches[place]).collect()).collect()
}

/// The status that a setting ends with.
pub fn status(score: &Decoded, awake: &Awake, setting: &[Token], random: &mut Random) -> u32 {
    let Awake::Running(agents) = awake else { return 2 };
    let agents: Vec<_> = agents.iter().copied().collect();
    engine::instant(score, &agents, setting, random).status()
}

/// How many settings end with status 0, with 1 and with 2.
pub fn counts(score: &Decoded, awake: &Awake, switches: &[Token], k: usize, random: &mut Random) -> [u32; 3] {
    let mut counts = [0; 3];
    for setting in settings(switches, k) {
        counts[status(score, awake, &setting, random) as usize] += 1;
    }
    counts
}

/// How many sets of k there are in a set of n.
pub fn binomial(n: usize, k: usize) -> u32 {
    if k > n {
        return 0;
    }
    (0..k).fold(1, |product, step| product * (n - step) as u32 / (step + 1) as u32)
}
