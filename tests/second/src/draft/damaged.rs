//! Drafts with faults.

use crate::answer::refused;
use crate::draft::{scenes, WATCH};
use crate::generate::{self, Score, Trial};
use crate::oracle::{self, kind};
use crate::random::Random;
use crate::{circles, words};

/// A draft that has a watch, its words, and the place of that watch.
fn with_watch(random: &mut Random) -> (Vec<u32>, usize) {
    loop {
        let words = oracle::words(&scenes::small_draft(random));
        let watches: Vec<usize> = oracle::agent_places(&words).filter(|&at| kind(words[at]) == WATCH).collect();
        if !watches.is_empty() {
            let at = random.pick(&watches);
            return (words, at);
        }
    }
}

/// A watch that has an unnamed bit, a token T or above, a body that is not below it, or several of these: the lowest
/// number is answered.
pub fn watch(random: &mut Random, _: u64) -> Trial {
    let (mut words, at) = with_watch(random);
    let (tokens, agent) = ((words[0] & 0xFF) + 1, at as u32 - 2);
    let faults = random.between(1, 7);
    let mut number = 0;
    if faults & 4 != 0 {
        words[at] = words[at] & !0x3FF | random.pick(&[agent, agent + 1, 1023]);
        number = 6;
    }
    if faults & 2 != 0 && tokens < 256 {
        words[at] = words[at] & !(0xFF << 10) | random.pick(&[tokens, 255]) << 10;
        number = 5;
    }
    if faults & 1 != 0 || number == 0 {
        words[at] |= 1 << random.between(18, 27);
        number = 4;
    }
    Trial::known(words::to_bytes(&words), refused(number, at as u64))
}

/// A watch where an agent may not stand: 4, or at the head 2.
pub fn watch_elsewhere(random: &mut Random, _: u64) -> Trial {
    let (mut words, _) = with_watch(random);
    let agents = oracle::agent_places(&words);
    let places: Vec<usize> = (0..words.len()).filter(|at| !agents.contains(at)).collect();
    let at = random.pick(&places);
    words[at] = match random.below(2) {
        0 => words[at] & 0x0FFF_FFFF | WATCH << 28,
        _ => words::watch(0, 0),
    };
    let answer = if at == 0 { refused(2, 0) } else { refused(4, at as u64) };
    Trial::known(words::to_bytes(&words), answer)
}

fn damaged(random: &mut Random, times: u32) -> Trial {
    let mut words = oracle::words(&scenes::small_draft(random));
    for _ in 0..times {
        generate::damage_any(random, &mut words);
    }
    Trial::open(words::to_bytes(&words))
}

pub fn one_word(random: &mut Random, _: u64) -> Trial {
    damaged(random, 1)
}

pub fn several_words(random: &mut Random, _: u64) -> Trial {
    let times = random.between(2, 5);
    damaged(random, times)
}

/// A trial of the score check with a watch for some of its whens. Where a score is accepted, so is the draft.
fn watched(random: &mut Random, trial: Trial) -> Trial {
    Trial { score: scenes::watched(random, &trial.score), known: trial.known }
}

/// Drafts whose own sizes are at their limits, with rules at theirs and one over.
pub fn boundary_sizes(random: &mut Random, index: u64) -> Trial {
    let trial = generate::boundary_sizes(random, index);
    watched(random, trial)
}

/// Cut short, or drawn out by rules and facts, to a length about one of the limits.
pub fn lengths(random: &mut Random, index: u64) -> Trial {
    let trial = generate::lengths(random, index);
    watched(random, trial)
}

/// The score check's generators, with circles and damage of every kind.
pub fn checked(random: &mut Random, index: u64) -> Trial {
    let generators = [
        circles::one_circle,
        circles::two_circles,
        circles::any_calls,
        circles::any_calls_damaged,
        circles::chain_into_circle,
        generate::damaged_head,
        generate::random_bytes,
        generate::one_field_at_its_limit,
        generate::fact_damaged,
    ];
    let trial = random.pick(&generators)(random, index);
    watched(random, trial)
}

/// The same of those that make accepted scores.
pub fn accepted(random: &mut Random, index: u64) -> Trial {
    let generators = [
        circles::guarded_circle,
        circles::chain,
        generate::valid_small,
        generate::valid_middling,
        generate::valid_any,
        generate::valid_with_facts,
    ];
    let trial = random.pick(&generators)(random, index);
    watched(random, trial)
}

/// The score that has every kind, with two watches more and a root at one of them.
pub fn every_kind() -> Score {
    let mut draft = generate::every_kind();
    let first = draft.agents.len() as u32;
    draft.agents.extend([words::watch(7, 2), words::watch(first, 4)]);
    draft.procedures[0] = words::procedure(first + 1);
    draft
}

/// Every bit of a draft that has every kind, in turn.
pub fn every_bit(_: &mut Random, index: u64) -> Trial {
    let mut words = every_kind().words();
    let at = (index / 32) as usize % words.len();
    words[at] ^= 1 << (index % 32);
    Trial::open(words::to_bytes(&words))
}

/// Every kind at every word of a draft that has every kind, in turn.
pub fn every_kind_everywhere(_: &mut Random, index: u64) -> Trial {
    let mut words = every_kind().words();
    let at = (index / 16) as usize % words.len();
    words[at] = words[at] & 0x0FFF_FFFF | (index as u32 % 16) << 28;
    Trial::open(words::to_bytes(&words))
}
