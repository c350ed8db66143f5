//! Passes counted in chains of every order and in generated scores, and held to the second engine's own closing.

use super::*;
use crate::answer::ACCEPTED;
use crate::chains::{self, Chain, Start};
use crate::decoded::Decoded;
use crate::engine;
use crate::random::Random;
use crate::{oracle, scenes};

const LENGTHS: [u32; 8] = [1, 2, 3, 127, 128, 254, 255, 256];

fn chain(tokens: u32, start: Start) -> Chain {
    Chain { tokens, lowest: 0, start }
}

/// The rules of a chain, as the score that has them is taken apart.
fn rules_of(chain: Chain) -> Vec<Rule> {
    let score = chain.score();
    assert_eq!(oracle::check(&score), ACCEPTED);
    Decoded::new(&score).rules
}

/// How many tokens the store has after each pass.
fn sizes(rules: &[Rule], given: &[Token]) -> Vec<usize> {
    passes(rules, given).iter().map(BTreeSet::len).collect()
}

#[test]
fn the_worst_order_takes_a_pass_for_each_token_and_one_more() {
    for tokens in LENGTHS {
        let mut one_by_one: Vec<usize> = (1..=tokens as usize).collect();
        one_by_one.push(tokens as usize);
        assert_eq!(sizes(&rules_of(chain(tokens, Start::Fact)), &[]), one_by_one);
    }
}

#[test]
fn the_most_passes_are_257() {
    let most = chain(256, Start::Fact);
    assert_eq!(most.rules().len(), 256);
    assert_eq!(most.rules()[..2], [0x2001_0100, 0x2002_0201]);
    assert_eq!(most.rules()[254..], [0x20FF_FFFE, 0x2800_00FF]);
    assert_eq!(passes(&rules_of(most), &[]).len(), 257);
}

#[test]
fn a_token_that_is_given_takes_no_pass() {
    for tokens in LENGTHS {
        let given = [tokens as usize - 1];
        assert_eq!(passes(&rules_of(chain(tokens, Start::Input)), &given).len(), tokens as usize);
        assert_eq!(passes(&rules_of(chain(tokens, Start::Fact)), &given).len(), tokens as usize);
    }
}

#[test]
fn a_chain_that_nothing_starts_takes_one_pass() {
    for tokens in LENGTHS {
        assert_eq!(sizes(&rules_of(chain(tokens, Start::Input)), &[]), [0]);
    }
}

#[test]
fn the_best_order_takes_two_passes() {
    for tokens in LENGTHS {
        let mut rules = rules_of(chain(tokens, Start::Fact));
        rules.reverse();
        assert_eq!(sizes(&rules, &[]), [tokens as usize; 2]);
    }
}

#[test]
fn no_rules_take_one_pass() {
    assert_eq!(sizes(&[], &[]), [0]);
    assert_eq!(sizes(&[], &[0, 7, 255]), [3]);
}

/// The second engine's own closure of the tokens given.
fn closed(score: &Decoded, given: &[Token]) -> Vec<bool> {
    let mut store = vec![false; score.tokens];
    given.iter().for_each(|&token| store[token] = true);
    engine::close(&score.rules, &mut store);
    store
}

/// What document 02 says of the passes, and that they end with the closure but for the clash. How many there are.
fn hold(score: &Decoded, given: &[Token]) -> usize {
    let stores = passes(&score.rules, given);
    let (last, adding) = stores.split_last().expect("there is a last pass");
    let mut before = given.len();
    for store in adding {
        assert!(store.len() > before, "a pass before the last adds nothing");
        before = store.len();
    }
    assert_eq!(last.len(), before, "the last pass adds a token");
    assert!(stores.len() <= 257 - given.len());
    assert!(stores.len() <= score.tokens + 1 - given.len());
    assert!(stores.len() <= score.rules.len() + 1);
    let is_in = |token| last.contains(&0) || last.contains(&token);
    assert_eq!((0..score.tokens).map(is_in).collect::<Vec<_>>(), closed(score, given));
    stores.len()
}

/// Holds scores of a kind, each from nothing and from random tokens. How many passes each closing took.
fn hold_all(make: fn(&mut Random) -> Vec<u8>, count: u64) -> Vec<usize> {
    let mut counts = Vec::new();
    for index in 0..count {
        let mut random = Random::new(0, index);
        let score = Decoded::new(&make(&mut random));
        counts.push(hold(&score, &[]));
        counts.push(hold(&score, &scenes::tokens(&mut random, &score)));
    }
    counts
}

fn require(counts: &[usize], least: usize, times: usize) {
    let met = counts.iter().filter(|&&count| count >= least).count();
    assert!(met >= times, "{least} passes or more: met only {met} times");
}

#[test]
fn generated_scores_take_no_more_passes_than_tokens_and_one() {
    require(&hold_all(scenes::score, 4_000), 3, 200);
    require(&hold_all(scenes::large_score, 200), 3, 40);
    require(&hold_all(scenes::rule_chain, 200), 10, 20);
    require(&hold_all(scenes::fact_chain, 200), 250, 20);
}

#[test]
fn long_chains_take_many_passes() {
    let counts = hold_all(chains::long_chain, 1_000);
    require(&counts, 100, 600);
    require(&counts, 240, 200);
    require(&counts, 257, 10);
}
