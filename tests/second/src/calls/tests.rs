//! Instant numbers, where the programs cannot go: a journal as long as it takes to reach the last number.

use super::*;
use crate::lent::{list_bytes, state_bytes, RUNNING};
use crate::sample::S;
use crate::words::to_bytes;
use crate::{lawful, scenes};

/// Journals of so many instants, checked as if the start had one of the last numbers.
#[test]
fn a_journal_check_is_14_at_the_instant_wanted_at_the_last_number() {
    let score = Decoded::new(&to_bytes(&S));
    let random = &mut Random::new(0, 0);
    for length in 0..6 {
        let list = vec![vec![1]; length];
        let journal = journal(&score, &list, random).concat();
        for left in 0..6 {
            let state = State { number: LAST_NUMBER - left, ..State::start(&score) };
            let fits = length <= left as usize;
            let wanted = if fits { Ok(Answer::Accepted(length as u64)) } else { Err(refused(14, left.into())) };
            assert_eq!(answer_journal(&score, state, &journal, random), wanted);
        }
    }
}

#[test]
fn a_wrong_instant_before_the_last_number_comes_first() {
    let score = Decoded::new(&to_bytes(&S));
    let state = State { number: LAST_NUMBER - 2, ..State::start(&score) };
    let quiet = to_bytes(&[instant_word(0); 4]);
    let clash_for = |instant: usize| [&quiet[..4 * instant], &to_bytes(&[instant_word(1)]), &quiet].concat();
    let check = |journal: &[u8]| answer_journal(&score, state.clone(), journal, &mut Random::new(0, 0));
    assert_eq!([0, 1, 2, 3].map(|instant| check(&clash_for(instant))), [0, 1, 2, 2].map(|at| Err(refused(14, at))));
}

#[test]
fn the_start_has_number_0_and_a_run_from_it_as_many_as_its_instants() {
    let score = to_bytes(&S);
    let random = &mut Random::new(0, 0);
    let start = State::start(&Decoded::new(&score)).bytes();
    assert_eq!((&start[..4], &start[4..132], &start[132..]), (&[0, 0, 0, 0xF0][..], &agent_4()[..], &[0; 4][..]));
    let inputs = list_bytes(&vec![vec![]; 259]);
    let lent = RunLent { score, state: start, inputs, journal: vec![0; 1036], scratch: vec![0xFF; SCRATCH_BYTES] };
    let (answer, after) = run_call(&lent, random);
    assert_eq!((answer, &after.state[132..]), (Answer::Accepted(259), &[3, 1, 0, 0][..]));
}

/// The bytes of the agents where agent 4 is awake alone.
fn agent_4() -> Vec<u8> {
    [vec![0x10], vec![0; 127]].concat()
}

/// The number of a state is read by nothing but the test for 18.
#[test]
fn an_instant_is_the_same_at_each_number_but_the_last() {
    for index in 0..2_000 {
        let random = &mut Random::new(1, index);
        let score = scenes::score(random);
        let lent = lawful::instant(random, score);
        let (answer, after) = instant_call(&lent, random);
        assert_eq!(number_of(&after.state), number_of(&lent.state) + 1);
        let other = scenes::any_number(random);
        let at_other = InstantLent { state: numbered(lent.state.clone(), other), ..lent.clone() };
        let (answer_at_other, after_other) = instant_call(&at_other, random);
        if other == LAST_NUMBER {
            assert_eq!((answer_at_other, after_other.buffers()), (refused(18, 0), at_other.buffers()));
        } else {
            let state = numbered(after.state.clone(), other + 1);
            let wanted = InstantLent { state, ..after };
            assert_eq!((answer_at_other, after_other.buffers()), (answer, wanted.buffers()));
        }
    }
}

#[test]
fn any_number_is_lawful() {
    let score = Decoded::new(&to_bytes(&S));
    for number in [0, 1, 31, 32, 0xF000_0000, 0xF000_0001, 1 << 31, LAST_NUMBER] {
        for (word_0, agents) in [(RUNNING, vec![]), (RUNNING, vec![0, 4]), (ABORTED, vec![])] {
            let state = numbered(state_bytes(word_0, agents), number);
            let read = State::read(&score, &state).expect("the state is lawful");
            assert_eq!((read.number, read.bytes()), (number, state));
        }
        assert!(State::read(&score, &numbered(state_bytes(RUNNING, [5]), number)).is_none());
        assert!(State::read(&score, &numbered(state_bytes(ABORTED, [4]), number)).is_none());
    }
}
