//! The settings themselves, and what the second engine counts of them.

use super::*;
use crate::lent::State;
use crate::sample::S;
use crate::scenes;
use crate::words::to_bytes;
use std::collections::BTreeSet;

#[test]
fn settings_are_the_sets_of_exactly_k() {
    for n in 0..=MOST_SWITCHES {
        let switches: Vec<Token> = (100..100 + n).collect();
        for k in 0..=n + 1 {
            let settings = settings(&switches, k);
            let sets: BTreeSet<BTreeSet<Token>> = settings.iter().map(|set| set.iter().copied().collect()).collect();
            assert!(sets.iter().all(|set| set.len() == k && set.iter().all(|token| switches.contains(token))));
            assert_eq!((settings.len(), sets.len()), (binomial(n, k) as usize, binomial(n, k) as usize));
        }
    }
}

#[test]
fn binomials_are_those_of_the_triangle() {
    let mut row = vec![1];
    for n in 0..=MOST_SWITCHES {
        assert_eq!(row, (0..=n).map(|k| binomial(n, k)).collect::<Vec<_>>());
        let inner = row.windows(2).map(|pair| pair[0] + pair[1]);
        row = [1].into_iter().chain(inner).chain([1]).collect();
    }
    assert_eq!((binomial(16, 8), binomial(3, 4), binomial(0, 0)), (12_870, 0, 1));
}

#[test]
fn each_cause_of_17_is_found() {
    let score = Decoded::new(&to_bytes(&S));
    let list: Vec<u8> = (0..17).collect();
    assert!(faults(&score, &[], 0).is_empty() && faults(&score, &[3, 0, 1], 3).is_empty());
    assert_eq!(faults(&score, &[1; 16], 0), [FAULTS[1]]);
    assert_eq!(faults(&score, &[2, 1, 2], 0), [FAULTS[1]]);
    assert_eq!(faults(&score, &[4], 0), [FAULTS[2]]);
    assert_eq!(faults(&score, &[1], 2), [FAULTS[3]]);
    assert_eq!(faults(&score, &[], u32::MAX), [FAULTS[3]]);
    assert_eq!(faults(&score, &list, 17), [FAULTS[0], FAULTS[2]]);
}

/// Tokens 2 and 3 clash, and from the start state 1 tells 2.
#[test]
fn the_sample_counts() {
    let score = Decoded::new(&to_bytes(&S));
    let count = |awake: &Awake, k| counts(&score, awake, &[1, 2, 3], k, &mut Random::new(0, 0));
    let (start, nobody) = (State::start(&score).awake, Awake::Running(BTreeSet::new()));
    assert_eq!([0, 1, 2, 3].map(|k| count(&start, k)), [[1, 0, 0], [3, 0, 0], [1, 2, 0], [0, 1, 0]]);
    assert_eq!([0, 1, 2, 3].map(|k| count(&nobody, k)), [[1, 0, 0], [3, 0, 0], [2, 1, 0], [0, 1, 0]]);
    assert_eq!([0, 1, 2, 3].map(|k| count(&Awake::Aborted, k)), [[0, 0, 1], [0, 0, 3], [0, 0, 3], [0, 0, 1]]);
}

/// The order of the list does not matter. No two settings of one state end with a clash and with an abort: a clash
/// answers every when, and so leads to each abort that there is to be reached.
#[test]
fn counts_are_of_sets_and_have_not_both_clashes_and_aborts() {
    let mut met = [0; 3];
    for index in 0..2_000 {
        let mut random = Random::new(0, index);
        let n = random.below(7);
        let score = Decoded::new(&scenes::switchboard(&mut random, n.max(1)));
        let State { awake, .. } =
            State::read(&score, &scenes::lawful_state(&mut random, &score)).expect("a lawful state");
        let mut switches: Vec<Token> = random.order(score.tokens as u32).iter().map(|&token| token as usize).collect();
        switches.truncate(n as usize);
        for k in 0..=switches.len() {
            let counted = counts(&score, &awake, &switches, k, &mut random);
            random.shuffle(&mut switches);
            assert_eq!(counted, counts(&score, &awake, &switches, k, &mut random));
            assert_eq!(counted.iter().sum::<u32>(), binomial(switches.len(), k));
            assert!(counted[1] == 0 || counted[2] == 0);
            (0..3).for_each(|status| met[status] += u64::from(counted[status] > 0));
        }
    }
    assert!(met.iter().all(|&times| times >= 1_000), "{met:?}");
}
