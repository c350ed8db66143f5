//! Generated runs.

use crate::judge::{self, known};
use second::answer::{refused, Answer};
use second::calls::{bits_of_instants, RunLent};
use second::decoded::Decoded;
use second::lent::*;
use second::random::Random;
use second::scenes::{SCRATCH_LENGTHS, STATE_LENGTHS};
use second::tests::{ensure, Met, Outcome};
use second::{chains, lawful, oracle, scenes, words};

fn any_lawful(random: &mut Random, most_instants: u32) -> RunLent {
    let score = scenes::score(random);
    lawful::run(random, score, most_instants)
}

fn small_lawful(random: &mut Random, most_instants: u32) -> RunLent {
    let score = scenes::small_score(random);
    lawful::run(random, score, most_instants)
}

/// With room enough every list is run to its end.
fn run_to_end(met: &mut Met, random: &mut Random, lent: &RunLent) -> Outcome {
    let (answer, _) = judge::run(met, random, lent)?;
    known(answer, answer == Answer::Accepted(instants(&lent.inputs).len() as u64))
}

pub fn accepted(met: &mut Met, random: &mut Random, _: u64) -> Outcome {
    let lent = any_lawful(random, 12);
    run_to_end(met, random, &lent)
}

pub fn of_scores_without_facts(met: &mut Met, random: &mut Random, _: u64) -> Outcome {
    let score = scenes::score_without_facts(random);
    let lent = lawful::run(random, score, 12);
    run_to_end(met, random, &lent)
}

pub fn of_special_scores(met: &mut Met, random: &mut Random, _: u64) -> Outcome {
    let score = scenes::special_score(random);
    let lent = lawful::run(random, score, 4);
    judge::run(met, random, &lent).map(|_| ())
}

pub fn of_long_chains(met: &mut Met, random: &mut Random, _: u64) -> Outcome {
    let score = chains::long_chain(random);
    let lent = lawful::run(random, score, 4);
    run_to_end(met, random, &lent)
}

pub fn long(met: &mut Met, random: &mut Random, _: u64) -> Outcome {
    let lent = small_lawful(random, 3_000);
    judge::run(met, random, &lent).map(|_| ())
}

/// The journal ends anywhere.
pub fn with_any_room(met: &mut Met, random: &mut Random, _: u64) -> Outcome {
    let mut lent = any_lawful(random, 12);
    let room = random.below(lent.journal.len() as u32 + 1);
    lent.journal.truncate(room as usize);
    judge::run(met, random, &lent).map(|_| ())
}

/// The journal ends at every byte in turn; from what the whole run needs on, the run is accepted.
pub fn with_every_room(met: &mut Met, random: &mut Random, _: u64) -> Outcome {
    let lent = small_lawful(random, 6);
    let mut stopped = true;
    for room in 0..=lent.journal.len() {
        let mut lent = lent.clone();
        lent.journal.truncate(room);
        let (answer, _) = judge::run(met, random, &lent)?;
        known(answer, stopped || answer.number() == 0)?;
        stopped = answer.number() == 15;
    }
    Ok(())
}

/// The list is cut at every byte in turn: between words it is 12, and there is no other refusal.
pub fn cut_at_every_byte(met: &mut Met, random: &mut Random, _: u64) -> Outcome {
    let lent = small_lawful(random, 8);
    for length in 0..lent.inputs.len() {
        let mut lent = lent.clone();
        lent.inputs.truncate(length);
        let (answer, _) = judge::run(met, random, &lent)?;
        known(answer, answer.number() == if length % 4 == 0 { 0 } else { 12 })?;
    }
    Ok(())
}

/// Every bit of a list is damaged in turn.
pub fn every_bit_damaged(met: &mut Met, random: &mut Random, _: u64) -> Outcome {
    let lent = small_lawful(random, 4);
    for bit in 0..8 * lent.inputs.len() {
        let mut lent = lent.clone();
        lent.inputs[bit / 8] ^= 1 << (bit % 8);
        judge::run(met, random, &lent)?;
    }
    Ok(())
}

/// Words put in, taken out, exchanged or replaced.
pub fn damage_words(random: &mut Random, bytes: &mut Vec<u8>) {
    let mut words = oracle::words(bytes);
    let place = random.below(words.len() as u32 + 1) as usize;
    let other = random.below(words.len() as u32 + 1) as usize;
    match random.below(4) {
        0 => words.insert(place, any_word(random)),
        1 if place < words.len() => drop(words.remove(place)),
        2 if place.max(other) < words.len() => words.swap(place, other),
        _ if place < words.len() => words[place] = any_word(random),
        _ => words.push(any_word(random)),
    }
    *bytes = words::to_bytes(&words);
}

/// A word of a list or journal, or one that is close to it.
fn any_word(random: &mut Random) -> u32 {
    let token = random.pick(&[0, 1, 2, 3, 5, 9, 255, 256]);
    match random.below(8) {
        0 => instant_word(0),
        1 => instant_word(random.below(4)),
        2..=4 => input_word(token),
        5 => output_word(token),
        6 => random.word(),
        _ => random.below(16) << 28 | random.below(8),
    }
}

pub fn of_damaged_lists(met: &mut Met, random: &mut Random, _: u64) -> Outcome {
    let mut lent = any_lawful(random, 10);
    for _ in 0..random.between(1, 2) {
        damage_words(random, &mut lent.inputs);
    }
    judge::run(met, random, &lent).map(|_| ())
}

/// Any mixture of what may be wrong; an aborted state, or no room, switches off no test.
pub fn several_faults(met: &mut Met, random: &mut Random, _: u64) -> Outcome {
    let mut lent = small_lawful(random, 6);
    let decoded = Decoded::new(&lent.score);
    if random.one_in(3) {
        damage_words(random, &mut lent.inputs);
    }
    if random.one_in(4) {
        lent.inputs.push(random.word() as u8);
    }
    match random.below(4) {
        0 => lent.state = scenes::unlawful_state(random, &decoded),
        1 => lent.state = numbered(state_bytes(ABORTED, []), scenes::any_number(random)),
        2 => lent.state = numbered(lent.state, scenes::late_number(random)),
        _ => {}
    }
    match random.below(6) {
        0 => scenes::resize(random, &mut lent.state),
        1 => scenes::resize(random, &mut lent.scratch),
        _ => {}
    }
    if random.one_in(4) {
        scenes::damage_score(random, &mut lent.score);
    }
    if random.one_in(3) {
        lent.journal.truncate(random.below(20) as usize);
    }
    judge::run(met, random, &lent).map(|_| ())
}

/// A scratch of any length, the right one among them. With another one the rest is at times wrong besides.
pub fn with_scratch_lengths(met: &mut Met, random: &mut Random, index: u64) -> Outcome {
    let mut lent = small_lawful(random, 3);
    let length = SCRATCH_LENGTHS.in_turn(random, index);
    lent.scratch = scenes::dirt(random, length);
    if length != SCRATCH_BYTES && random.one_in(2) {
        lent.state = scenes::unlawful_state(random, &Decoded::new(&lent.score));
        lent.inputs = scenes::dirt(random, 9);
    }
    let (answer, _) = judge::run(met, random, &lent)?;
    met.count_length("run", &SCRATCH_LENGTHS, length, answer)
}

/// A state of any length, the right one among them. With another one the list is at times wrong besides.
pub fn with_state_lengths(met: &mut Met, random: &mut Random, index: u64) -> Outcome {
    let mut lent = small_lawful(random, 3);
    let length = STATE_LENGTHS.in_turn(random, index);
    lent.state.resize(length, random.word() as u8);
    if length != STATE_BYTES && random.one_in(2) {
        lent.inputs = scenes::dirt(random, 9);
    }
    let (answer, _) = judge::run(met, random, &lent)?;
    met.count_length("run", &STATE_LENGTHS, length, answer)
}

/// The scratch holds the bits that one of the run's instants sets, as if they had not been cleared.
pub fn on_old_bits(met: &mut Met, random: &mut Random, _: u64) -> Outcome {
    let mut lent = any_lawful(random, 6);
    let list = inputs(&lent.inputs);
    let bits = bits_of_instants(&Decoded::new(&lent.score), &lent.state, &list, random);
    if !bits.is_empty() {
        lent.scratch = bits[random.below(bits.len() as u32) as usize].clone();
    }
    run_to_end(met, random, &lent)
}

/// Scores of the score check's generators, with circles and damage of every kind.
pub fn of_checked_scores(met: &mut Met, random: &mut Random, index: u64) -> Outcome {
    let lent = RunLent {
        score: scenes::checked_score(random, index),
        state: numbered(state_bytes(RUNNING, [0]), scenes::any_number(random)),
        inputs: list_bytes(&[vec![], vec![0]]),
        journal: scenes::dirt(random, 64),
        scratch: scenes::dirt(random, SCRATCH_BYTES),
    };
    judge::run(met, random, &lent).map(|_| ())
}

/// A run split at random points, on one state, writes the whole run's journal and leaves its state.
pub fn split(met: &mut Met, random: &mut Random, _: u64) -> Outcome {
    let whole = any_lawful(random, 10);
    judge_split(met, random, &whole)
}

/// The same where the last number may be reached: it ends the whole, and one of the parts and all behind it.
pub fn split_at_the_last(met: &mut Met, random: &mut Random, _: u64) -> Outcome {
    let mut whole = any_lawful(random, 10);
    whole.state = numbered(whole.state, LAST_NUMBER - random.below(8));
    judge_split(met, random, &whole)
}

fn judge_split(met: &mut Met, random: &mut Random, whole: &RunLent) -> Outcome {
    let (answer_whole, after_whole) = judge::run(met, random, whole)?;
    let mut part = whole.clone();
    let mut journal = Vec::new();
    for inputs in parts(random, &whole.inputs) {
        part.inputs = inputs;
        part.journal = vec![0; whole.journal.len()];
        let (answer, after) = judge::run(met, random, &part)?;
        known(answer, answer == answer_with_room(&part))?;
        journal.extend(written(&after.journal));
        part.state = after.state;
    }
    known(answer_whole, answer_whole == answer_with_room(whole))?;
    ensure(part.state == after_whole.state, "the parts leave another state than the whole")?;
    ensure(instants(&journal).len() as u64 == answer_whole.written(), "the parts write other instants than the whole")?;
    ensure(after_whole.journal.starts_with(&journal), "the parts' journals are not the whole's")
}

/// The answer to a lawful run with room for its journal: all instants of its list, or as many as have numbers.
fn answer_with_room(lent: &RunLent) -> Answer {
    let (instants, left) = (instants(&lent.inputs).len() as u64, u64::from(LAST_NUMBER - number_of(&lent.state)));
    if instants <= left {
        Answer::Accepted(instants)
    } else {
        refused(18, left)
    }
}

/// A list in parts that end where instants end; some of them are empty.
fn parts(random: &mut Random, list: &[u8]) -> Vec<Vec<u8>> {
    let mut parts = vec![vec![]];
    for instant in instants(list) {
        while random.one_in(3) {
            parts.push(vec![]);
        }
        let last = parts.len() - 1;
        parts[last].extend(&list[4 * instant.start..4 * instant.end]);
    }
    parts
}

/// What a run wrote to a journal that was all zero.
pub fn written(journal: &[u8]) -> &[u8] {
    let words = journal.chunks_exact(4).take_while(|word| *word != [0; 4]).count();
    &journal[..4 * words]
}

/// Random bytes are 12 or 13, if they are any.
pub fn list_of_random_bytes(met: &mut Met, random: &mut Random, _: u64) -> Outcome {
    let mut lent = small_lawful(random, 3);
    let length = random.below(64) as usize;
    lent.inputs = scenes::dirt(random, length);
    let (answer, _) = judge::run(met, random, &lent)?;
    known(answer, length == 0 || answer == refused(12, 0) || answer.number() == 13)
}
