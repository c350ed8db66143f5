//! The bits of the scratch held to the set of agents reduced, and the count that is taken from them to that set's size.

use super::*;
use crate::answer::Answer;
use crate::calls::{instant_call, InstantLent};
use crate::decoded::{Decoded, Token};
use crate::engine::{self, End, Order};
use crate::lent::{map_tokens, state_bytes, RUNNING};
use crate::random::Random;
use crate::words::*;
use crate::{every_order, lawful, scenes};
use std::collections::BTreeSet;

fn marked(agents: impl IntoIterator<Item = Agent>) -> Scratch {
    let mut scratch = Scratch::cleared();
    agents.into_iter().for_each(|agent| scratch.mark(agent));
    scratch
}

/// All bytes are 0 but those given.
fn bytes(others: &[(usize, u8)]) -> Vec<u8> {
    let mut bytes = vec![0; 128];
    others.iter().for_each(|&(at, byte)| bytes[at] = byte);
    bytes
}

#[test]
fn agents_have_the_bits_of_their_numbers() {
    let places = [
        (0, 0, 0x01),
        (7, 0, 0x80),
        (8, 1, 0x01),
        (31, 3, 0x80),
        (32, 4, 0x01),
        (255, 31, 0x80),
        (256, 32, 0x01),
        (1015, 126, 0x80),
        (1016, 127, 0x01),
        (1023, 127, 0x80),
    ];
    for (agent, at, byte) in places {
        assert_eq!(marked([agent]).bytes(), bytes(&[(at, byte)]));
    }
    assert_eq!(marked([0, 7, 8, 1016, 1023]).bytes(), bytes(&[(0, 0x81), (1, 0x01), (127, 0x81)]));
}

#[test]
fn each_agent_counts_once() {
    let mut scratch = Scratch::cleared();
    assert_eq!(scratch.count(), 0);
    for agent in 0..1024 {
        for _ in 0..2 {
            scratch.mark(agent);
            assert_eq!(scratch.count(), agent as u32 + 1);
        }
    }
    assert_eq!(scratch.bytes(), vec![0xFF; 128]);
}

/// The bits are those of the agents reduced, and the count is how many these are.
fn hold(reduced: &BTreeSet<Agent>, scratch: &Scratch) {
    assert_eq!(*scratch, marked(reduced.iter().copied()));
    assert_eq!(scratch.count() as usize, reduced.len());
}

/// How an instant went: its status, the agents that could not be reduced, and its count by the set.
struct Went {
    status: u32,
    left_over: usize,
    count: usize,
}

fn went(order: &Order) -> Went {
    hold(&order.reduced, &order.scratch);
    let end = order.end();
    let count = match &end {
        End::Abort => 0,
        End::Quiet { reduced, scratch, .. } => {
            assert_eq!((reduced, scratch), (&order.reduced, &order.scratch));
            reduced.len()
        }
    };
    Went { status: end.status(), left_over: order.copies.len(), count }
}

fn instant_of(random: &mut Random, score: Vec<u8>) -> (InstantLent, Vec<Agent>, Vec<Token>) {
    let decoded = Decoded::new(&score);
    let agents = scenes::agents(random, &decoded);
    let state = state_bytes(RUNNING, agents.iter().copied());
    let lent = InstantLent { state, ..lawful::instant(random, score) };
    let inputs = map_tokens(&lent.input);
    (lent, agents, inputs)
}

/// Instants of scores of a kind. The count that the call answers is the size of the set.
fn hold_all(make: fn(&mut Random) -> Vec<u8>, count: u64) -> Vec<Went> {
    let hold_one = |index| {
        let mut random = Random::new(0, index);
        let score = make(&mut random);
        let (lent, agents, inputs) = instant_of(&mut random, score);
        let went = went(&engine::finished(&Decoded::new(&lent.score), &agents, &inputs, &mut random));
        let (answer, after) = instant_call(&lent, &mut random);
        assert_eq!(answer, Answer::Instant { status: went.status, count: went.count as u32 });
        assert_eq!(after.scratch, bytes(&[]));
        went
    };
    (0..count).map(hold_one).collect()
}

fn require(went: &[Went], what: &str, holds: fn(&Went) -> bool, times: usize) {
    let met = went.iter().filter(|went| holds(went)).count();
    assert!(met >= times, "{what}: met only {met} times");
}

#[test]
fn the_count_of_generated_instants_is_that_of_the_set() {
    let went = hold_all(scenes::score, 10_000);
    require(&went, "quiet", |went| went.status == 0, 1_000);
    require(&went, "clash", |went| went.status == 1, 1_000);
    require(&went, "aborted", |went| went.status == 2, 300);
    require(&went, "agents left over", |went| went.left_over > 0 && went.count > 0, 1_000);
    require(&hold_all(scenes::large_score, 200), "more than 255", |went| went.count > 255, 20);
    require(&hold_all(scenes::deep_sharing, 100), "more than 500", |went| went.count > 500, 20);
}

#[test]
fn every_order_of_a_tiny_score_sets_the_same_bits() {
    let mut quiet = 0;
    for index in 0..2_000 {
        let mut random = Random::new(1, index);
        let score = scenes::tiny_score(&mut random);
        let (lent, agents, inputs) = instant_of(&mut random, score);
        let ends = every_order::ends(Order::start(&Decoded::new(&lent.score), &agents, &inputs), 500)
            .expect("no order is too long");
        let Some(ends) = ends else { continue };
        assert_eq!(ends.len(), 1);
        for end in ends {
            if let End::Quiet { reduced, scratch, .. } = end {
                hold(&reduced, &scratch);
                quiet += usize::from(!reduced.is_empty());
            }
        }
    }
    assert!(quiet >= 500, "met only {quiet} times");
}

/// All agents are reduced by the end, the abort among them.
#[test]
fn status_2_has_count_0_though_bits_are_set() {
    let agents = [abort()].into_iter().chain((0..1023).map(|below| parallel(below, below))).collect();
    let score = scenes::plain(1, agents, vec![]);
    let mut random = Random::new(2, 0);
    let decoded = Decoded::new(&score);
    let order = engine::finished(&decoded, &[1023], &[], &mut random);
    assert_eq!((order.end(), order.scratch.count()), (End::Abort, 1024));
    let state = state_bytes(RUNNING, [1023]);
    let input = vec![0; 32];
    let lent = InstantLent { state, input, ..lawful::instant(&mut random, score) };
    let (answer, after) = instant_call(&lent, &mut random);
    assert_eq!(answer, Answer::Instant { status: 2, count: 0 });
    assert_eq!(after.scratch, bytes(&[]));
    let (answer, after) = instant_call(&InstantLent { scratch: vec![0xFF; 128], ..after }, &mut random);
    assert_eq!(answer, Answer::Instant { status: 2, count: 0 });
    assert_eq!(after.scratch, bytes(&[]));
}
