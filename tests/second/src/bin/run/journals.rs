//! Generated journals and their checks.

use crate::judge::{self, known};
use crate::runs::{damage_words, written};
use second::answer::{refused, Answer};
use second::calls::{bits_of_instants, journal, JournalCheckLent};
use second::decoded::Decoded;
use second::lent::*;
use second::random::Random;
use second::scenes::SCRATCH_LENGTHS;
use second::tests::{Met, Outcome};
use second::words::to_bytes;
use second::{chains, lawful, oracle, scenes};

fn lent(random: &mut Random, score: Vec<u8>, journal: Vec<u8>) -> JournalCheckLent {
    JournalCheckLent { score, journal, scratch: scenes::dirt(random, SCRATCH_BYTES) }
}

/// The journal of a run from the start state.
fn of_run(random: &mut Random, score: Vec<u8>, most_instants: u32) -> JournalCheckLent {
    let decoded = Decoded::new(&score);
    let list = scenes::instants(random, &decoded, most_instants);
    let journal = journal(&decoded, &list, random).concat();
    lent(random, score, journal)
}

fn of_small_run(random: &mut Random, most_instants: u32) -> JournalCheckLent {
    let score = scenes::small_score(random);
    of_run(random, score, most_instants)
}

fn check_to_end(met: &mut Met, random: &mut Random, lent: &JournalCheckLent) -> Outcome {
    let answer = judge::journal_check(met, random, lent)?;
    known(answer, answer == Answer::Accepted(instants(&lent.journal).len() as u64))
}

pub fn accepted(met: &mut Met, random: &mut Random, _: u64) -> Outcome {
    let score = scenes::score(random);
    let lent = of_run(random, score, 12);
    check_to_end(met, random, &lent)
}

pub fn of_scores_without_facts(met: &mut Met, random: &mut Random, _: u64) -> Outcome {
    let score = scenes::score_without_facts(random);
    let lent = of_run(random, score, 12);
    check_to_end(met, random, &lent)
}

pub fn of_special_scores(met: &mut Met, random: &mut Random, _: u64) -> Outcome {
    let score = scenes::special_score(random);
    let lent = of_run(random, score, 4);
    check_to_end(met, random, &lent)
}

pub fn of_long_chains(met: &mut Met, random: &mut Random, _: u64) -> Outcome {
    let score = chains::long_chain(random);
    let lent = of_run(random, score, 4);
    check_to_end(met, random, &lent)
}

pub fn long(met: &mut Met, random: &mut Random, _: u64) -> Outcome {
    let mut lent = of_small_run(random, 3_000);
    check_to_end(met, random, &lent)?;
    if !lent.journal.is_empty() {
        damage_words(random, &mut lent.journal);
    }
    judge::journal_check(met, random, &lent).map(|_| ())
}

/// The instant that a word belongs to.
fn instant_of(journal: &[u8], word: usize) -> u64 {
    instants(journal).iter().position(|words| words.contains(&word)).expect("a word is part of an instant") as u64
}

/// Every status is changed in turn: 14 at its instant, or 13 at its word.
pub fn every_status_changed(met: &mut Met, random: &mut Random, _: u64) -> Outcome {
    let whole = of_small_run(random, 6);
    for (at, word) in words_of_kind(&whole.journal, 12) {
        for status in (0..4).filter(|&status| instant_word(status) != word) {
            let expected = match status {
                3 => refused(13, at as u64),
                _ => refused(14, instant_of(&whole.journal, at)),
            };
            let answer = with_word(met, random, &whole, at, instant_word(status))?;
            known(answer, answer == expected)?;
        }
    }
    Ok(())
}

fn words_of_kind(journal: &[u8], kind: u32) -> Vec<(usize, u32)> {
    oracle::words(journal).into_iter().enumerate().filter(|&(_, word)| oracle::kind(word) == kind).collect()
}

fn with_word(
    met: &mut Met,
    random: &mut Random,
    whole: &JournalCheckLent,
    at: usize,
    word: u32,
) -> Result<Answer, String> {
    let mut lent = whole.clone();
    lent.journal[4 * at..4 * at + 4].copy_from_slice(&word.to_le_bytes());
    judge::journal_check(met, random, &lent)
}

/// Every output word is changed in turn: 14 at its instant, or 13 at it or at the word that then no longer rises.
pub fn every_output_changed(met: &mut Met, random: &mut Random, _: u64) -> Outcome {
    let whole = of_small_run(random, 5);
    for (at, word) in words_of_kind(&whole.journal, 14) {
        let differs = refused(14, instant_of(&whole.journal, at));
        let faults = [refused(13, at as u64), refused(13, at as u64 + 1)];
        for other in [word - 1, word + 1, word ^ 1 << random.below(8), word ^ 1 << random.below(28)] {
            let answer = with_word(met, random, &whole, at, other)?;
            known(answer, answer == differs || faults.contains(&answer))?;
        }
        let answer = without_word(met, random, &whole, at)?;
        known(answer, answer == differs)?;
    }
    Ok(())
}

fn without_word(met: &mut Met, random: &mut Random, whole: &JournalCheckLent, at: usize) -> Result<Answer, String> {
    let mut lent = whole.clone();
    lent.journal.drain(4 * at..4 * at + 4);
    judge::journal_check(met, random, &lent)
}

/// An output word is put in at the end of an instant: 14 there, or 13 at that word.
pub fn output_added(met: &mut Met, random: &mut Random, _: u64) -> Outcome {
    let whole = of_small_run(random, 5);
    for (index, words) in instants(&whole.journal).into_iter().enumerate() {
        let mut lent = whole.clone();
        let word = output_word(random.below(12) as usize);
        lent.journal.splice(4 * words.end..4 * words.end, to_bytes(&[word]));
        let answer = judge::journal_check(met, random, &lent)?;
        known(answer, answer == refused(14, index as u64) || answer == refused(13, words.end as u64))?;
    }
    Ok(())
}

/// Every input word is changed in turn.
pub fn every_input_changed(met: &mut Met, random: &mut Random, _: u64) -> Outcome {
    let whole = of_small_run(random, 6);
    for (at, word) in words_of_kind(&whole.journal, 13) {
        for other in [word - 1, word + 1, word ^ 1 << random.below(8), word ^ 1 << random.below(28)] {
            with_word(met, random, &whole, at, other)?;
        }
        without_word(met, random, &whole, at)?;
    }
    Ok(())
}

/// The journal is cut at every byte in turn: where an instant ends it is accepted, within a word it is 12, and where
/// outputs are cut away it is 14.
pub fn cut_at_every_byte(met: &mut Met, random: &mut Random, _: u64) -> Outcome {
    let whole = of_small_run(random, 8);
    let ends: Vec<usize> = instants(&whole.journal).iter().map(|words| 4 * words.end).collect();
    for length in 0..whole.journal.len() {
        let mut lent = whole.clone();
        lent.journal.truncate(length);
        let answer = judge::journal_check(met, random, &lent)?;
        let whole_instants = ends.iter().filter(|&&end| end <= length).count() as u64;
        let expected = if !length.is_multiple_of(4) {
            refused(12, 0)
        } else if length == 0 || ends.contains(&length) {
            Answer::Accepted(whole_instants)
        } else if kind_at(&whole.journal, length) == 14 {
            refused(14, whole_instants)
        } else {
            continue;
        };
        known(answer, answer == expected)?;
    }
    Ok(())
}

fn kind_at(journal: &[u8], byte: usize) -> u32 {
    oracle::kind(oracle::words(journal)[byte / 4])
}

/// Every bit of a journal is damaged in turn.
pub fn every_bit_damaged(met: &mut Met, random: &mut Random, _: u64) -> Outcome {
    let whole = of_small_run(random, 3);
    for bit in 0..8 * whole.journal.len() {
        let mut lent = whole.clone();
        lent.journal[bit / 8] ^= 1 << (bit % 8);
        judge::journal_check(met, random, &lent)?;
    }
    Ok(())
}

pub fn damaged(met: &mut Met, random: &mut Random, _: u64) -> Outcome {
    let score = scenes::score(random);
    let mut lent = of_run(random, score, 10);
    for _ in 0..random.between(1, 2) {
        damage_words(random, &mut lent.journal);
    }
    judge::journal_check(met, random, &lent).map(|_| ())
}

/// The journal of a run from any state, which may be the start state.
pub fn of_another_start(met: &mut Met, random: &mut Random, _: u64) -> Outcome {
    let score = scenes::small_score(random);
    let mut run = lawful::run(random, score, 6);
    run.journal.fill(0);
    let (_, after) = judge::run(met, random, &run)?;
    let lent = lent(random, run.score, written(&after.journal).to_vec());
    judge::journal_check(met, random, &lent).map(|_| ())
}

/// Any mixture of what may be wrong.
pub fn several_faults(met: &mut Met, random: &mut Random, _: u64) -> Outcome {
    let mut lent = of_small_run(random, 6);
    if random.one_in(2) {
        damage_words(random, &mut lent.journal);
    }
    if random.one_in(4) {
        lent.journal.push(random.word() as u8);
    }
    if random.one_in(4) {
        scenes::resize(random, &mut lent.scratch);
    }
    if random.one_in(4) {
        scenes::damage_score(random, &mut lent.score);
    }
    judge::journal_check(met, random, &lent).map(|_| ())
}

/// A scratch of any length, the right one among them. With another one the journal is at times wrong besides.
pub fn with_scratch_lengths(met: &mut Met, random: &mut Random, index: u64) -> Outcome {
    let mut lent = of_small_run(random, 3);
    let length = SCRATCH_LENGTHS.in_turn(random, index);
    lent.scratch = scenes::dirt(random, length);
    if length != SCRATCH_BYTES && random.one_in(2) {
        lent.journal = scenes::dirt(random, 9);
    }
    let answer = judge::journal_check(met, random, &lent)?;
    met.count_length("journal check", &SCRATCH_LENGTHS, length, answer)
}

/// The scratch holds the bits that one of the journal's instants sets, as if they had not been cleared.
pub fn on_old_bits(met: &mut Met, random: &mut Random, _: u64) -> Outcome {
    let score = scenes::score(random);
    let mut lent = of_run(random, score, 6);
    let decoded = Decoded::new(&lent.score);
    let list = inputs(&lent.journal);
    let bits = bits_of_instants(&decoded, &State::start(&decoded).bytes(), &list, random);
    if !bits.is_empty() {
        lent.scratch = bits[random.below(bits.len() as u32) as usize].clone();
    }
    check_to_end(met, random, &lent)
}

/// Scores of the score check's generators, with circles and damage of every kind.
pub fn of_checked_scores(met: &mut Met, random: &mut Random, index: u64) -> Outcome {
    let score = scenes::checked_score(random, index);
    let lent = lent(random, score, list_bytes(&[vec![], vec![0]]));
    judge::journal_check(met, random, &lent).map(|_| ())
}
