//! Generated counts of settings, with nothing wrong about most of them.

use crate::judge::{judge, judge_known, told};
use crate::library;
use second::answer::same;
use second::calls::SettingsLent;
use second::decoded::Decoded;
use second::lent::*;
use second::random::Random;
use second::scenes;
use second::settings::MOST_SWITCHES;
use second::tests::{Met, Outcome};

/// So many distinct tokens of the score, in any order; seldom the clash, where there are others. Fewer where there are
/// not so many.
pub fn switches(random: &mut Random, tokens: usize, count: usize) -> Vec<u8> {
    let mut order = random.order(tokens as u32);
    if count < tokens && !random.one_in(8) {
        order.retain(|&token| token != 0);
    }
    order.truncate(count);
    order.into_iter().map(|token| token as u8).collect()
}

/// Few switches as a rule, so that there are few settings.
fn few(random: &mut Random) -> usize {
    random.pick(&[0, 1, 1, 2, 2, 3, 3, 4, 4, 5, 6])
}

pub fn any_k(random: &mut Random, switches: &[u8]) -> u32 {
    random.below(switches.len() as u32 + 1)
}

/// A call with nothing wrong about it, at any instant number.
pub fn lawful(random: &mut Random, score: Vec<u8>, count: usize) -> SettingsLent {
    let decoded = Decoded::new(&score);
    let switches = switches(random, decoded.tokens, count);
    let is_start = random.one_in(2);
    let state = if is_start { State::start(&decoded).bytes() } else { scenes::lawful_state(random, &decoded) };
    let state = numbered(state, scenes::any_number(random));
    SettingsLent { state, k: any_k(random, &switches), switches, score }
}

fn accepted(met: &mut Met, random: &mut Random, score: Vec<u8>, count: usize) -> Outcome {
    let lent = lawful(random, score, count);
    judge_known(met, random, &lent, 0)
}

pub fn any_scores(met: &mut Met, random: &mut Random, _: u64) -> Outcome {
    let (score, count) = (scenes::score(random), few(random));
    accepted(met, random, score, count)
}

pub fn scores_without_facts(met: &mut Met, random: &mut Random, _: u64) -> Outcome {
    let (score, count) = (scenes::score_without_facts(random), few(random));
    accepted(met, random, score, count)
}

pub fn large_scores(met: &mut Met, random: &mut Random, _: u64) -> Outcome {
    let (score, count) = (scenes::large_score(random), few(random).min(3));
    accepted(met, random, score, count)
}

pub fn special_scores(met: &mut Met, random: &mut Random, _: u64) -> Outcome {
    let (score, count) = (scenes::special_score(random), few(random).min(3));
    accepted(met, random, score, count)
}

/// A call on a score in which much hangs on the switches.
pub fn switchboard(random: &mut Random, count: usize) -> SettingsLent {
    let score = scenes::switchboard(random, count.max(1) as u32);
    lawful(random, score, count)
}

pub fn small_switchboard(random: &mut Random) -> SettingsLent {
    let count = few(random);
    switchboard(random, count)
}

pub fn switchboards(met: &mut Met, random: &mut Random, _: u64) -> Outcome {
    let lent = small_switchboard(random);
    judge_known(met, random, &lent, 0)
}

/// In turn each number of switches, with each k.
pub fn every_k(met: &mut Met, random: &mut Random, index: u64) -> Outcome {
    let mut lent = switchboard(random, index as usize % (MOST_SWITCHES + 1));
    for k in 0..=lent.switches.len() as u32 {
        lent.k = k;
        judge_known(met, random, &lent, 0)?;
    }
    Ok(())
}

/// Every list of at most so many tokens below a limit.
fn lists(most: usize, limit: u8) -> Vec<Vec<u8>> {
    let longer = |lists: &Vec<Vec<u8>>| -> Vec<Vec<u8>> {
        lists.iter().flat_map(|list| (0..limit).map(move |token| [&list[..], &[token]].concat())).collect()
    };
    let mut by_length = vec![vec![vec![]]];
    for length in 0..most {
        by_length.push(longer(&by_length[length]));
    }
    by_length.concat()
}

/// Every list of switches of a very small score, with tokens repeated and one past the last, and every k.
pub fn every_list(met: &mut Met, random: &mut Random, _: u64) -> Outcome {
    let score = scenes::least_score(random);
    let mut lent = lawful(random, score, 0);
    let tokens = Decoded::new(&lent.score).tokens;
    for switches in lists(tokens + 1, tokens as u8 + 1) {
        for k in 0..=switches.len() as u32 + 1 {
            lent = SettingsLent { switches: switches.clone(), k, ..lent };
            judge(met, random, &lent)?;
        }
    }
    Ok(())
}

pub fn aborted_states(met: &mut Met, random: &mut Random, _: u64) -> Outcome {
    let state = numbered(state_bytes(ABORTED, []), scenes::any_number(random));
    let lent = SettingsLent { state, ..small_switchboard(random) };
    judge_known(met, random, &lent, 0)
}

/// The switches are bytes of the score, where they lie.
pub fn switches_on_score(met: &mut Met, random: &mut Random, _: u64) -> Outcome {
    let mut lent = small_switchboard(random);
    let len = random.below(4) as usize;
    let at = random.below((lent.score.len() - len) as u32 + 1) as usize;
    lent.switches = lent.score[at..at + len].to_vec();
    lent.k = any_k(random, &lent.switches);
    let expected = judge(met, random, &lent)?;
    let answer = library::settings_on_score(&lent, at);
    met.count("settings", &lent.score, answer);
    same(answer, expected).map_err(|difference| told(&lent, &difference))
}
