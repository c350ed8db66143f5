//! Generated instants.

use crate::{library, overlap};
use second::answer::{refused, same, Answer};
use second::calls::{bits_of_instants, instant_call, InstantLent};
use second::decoded::Decoded;
use second::engine::{self, End, Order};
use second::guarded::{guards, GUARDS};
use second::lent::*;
use second::random::Random;
use second::scenes::{SCRATCH_LENGTHS, STATE_LENGTHS};
use second::sequence::Sequence;
use second::tests::{ensure, same_call, shown, Met, Outcome};
use second::{chains, every_order, lawful, scenes, words};
use std::collections::HashSet;

/// Holds the library to the second engine, between three kinds of guards.
pub fn judge(
    met: &mut Met,
    lent: &InstantLent,
    random: &mut Random,
    offset: usize,
) -> Result<(Answer, InstantLent), String> {
    let expected = instant_call(lent, random);
    for guard in guards(random) {
        let got = library::instant(lent, offset, guard)?;
        met.count("instant", &lent.score, got.0);
        same_call(&expected, &got).map_err(|difference| format!("{difference}{}", shown(lent)))?;
    }
    Ok(expected)
}

fn judge_at_any_offset(met: &mut Met, lent: &InstantLent, random: &mut Random) -> Outcome {
    let offset = random.below(8) as usize;
    judge(met, lent, random, offset).map(|_| ())
}

pub fn any_scores(met: &mut Met, random: &mut Random, _: u64) -> Outcome {
    let score = scenes::score(random);
    let lent = lawful::instant(random, score);
    judge_at_any_offset(met, &lent, random)
}

pub fn scores_without_facts(met: &mut Met, random: &mut Random, _: u64) -> Outcome {
    let score = scenes::score_without_facts(random);
    let lent = lawful::instant(random, score);
    judge_at_any_offset(met, &lent, random)
}

pub fn large_scores(met: &mut Met, random: &mut Random, _: u64) -> Outcome {
    let score = scenes::large_score(random);
    let lent = lawful::instant(random, score);
    judge_at_any_offset(met, &lent, random)
}

pub fn special_scores(met: &mut Met, random: &mut Random, _: u64) -> Outcome {
    let score = scenes::special_score(random);
    let lent = lawful::instant(random, score);
    judge_at_any_offset(met, &lent, random)
}

pub fn resize_one(random: &mut Random, lent: &mut InstantLent) {
    let buffers = [&mut lent.state, &mut lent.input, &mut lent.store, &mut lent.output, &mut lent.scratch];
    let which = random.below(5) as usize;
    for (place, buffer) in buffers.into_iter().enumerate() {
        if place == which {
            scenes::resize(random, buffer);
        }
    }
}

/// Buffers of another length.
pub fn other_lengths(met: &mut Met, random: &mut Random, _: u64) -> Outcome {
    let score = scenes::small_score(random);
    let mut lent = lawful::instant(random, score);
    for _ in 0..random.pick(&[1, 1, 1, 2]) {
        resize_one(random, &mut lent);
    }
    judge_at_any_offset(met, &lent, random)
}

/// A scratch of any length, the right one among them. With another one the rest is at times wrong besides.
pub fn scratch_lengths(met: &mut Met, random: &mut Random, index: u64) -> Outcome {
    let score = scenes::small_score(random);
    let mut lent = lawful::instant(random, score);
    let length = SCRATCH_LENGTHS.in_turn(random, index);
    lent.scratch = scenes::dirt(random, length);
    if length != SCRATCH_BYTES && random.one_in(2) {
        let decoded = Decoded::new(&lent.score);
        lent.state = scenes::unlawful_state(random, &decoded);
        lent.input = scenes::unlawful_input(random, &decoded);
    }
    let offset = random.below(8) as usize;
    let (answer, _) = judge(met, &lent, random, offset)?;
    met.count_length("instant", &SCRATCH_LENGTHS, length, answer)
}

/// A state of any length, the right one among them. With another one the rest is at times wrong besides.
pub fn state_lengths(met: &mut Met, random: &mut Random, index: u64) -> Outcome {
    let score = scenes::small_score(random);
    let mut lent = lawful::instant(random, score);
    let length = STATE_LENGTHS.in_turn(random, index);
    lent.state.resize(length, random.word() as u8);
    if length != STATE_BYTES && random.one_in(2) {
        lent.input = scenes::unlawful_input(random, &Decoded::new(&lent.score));
    }
    let offset = random.below(8) as usize;
    let (answer, _) = judge(met, &lent, random, offset)?;
    met.count_length("instant", &STATE_LENGTHS, length, answer)
}

/// What must be met among instants whose scratch holds bits of others.
pub const OLD_BITS: [&str; 2] = ["old bits of agents not reduced again", "old bits of agents reduced again"];

fn note_old_bits(met: &mut Met, old: &[u8], new: &[u8]) {
    let some = |bit: fn(u8, u8) -> u8| old.iter().zip(new).any(|(&old, &new)| bit(old, new) != 0);
    if some(|old, new| old & !new) {
        met.note(OLD_BITS[0]);
    }
    if some(|old, new| old & new) {
        met.note(OLD_BITS[1]);
    }
}

/// Instants on one state. The scratch of each holds the bits that the one before set, as if they had not been cleared;
/// that of the first holds its own.
pub fn old_bits(met: &mut Met, random: &mut Random, _: u64) -> Outcome {
    let score = scenes::score(random);
    let decoded = Decoded::new(&score);
    let mut lent = running(random, &score, &decoded);
    let mut old = None;
    for _ in 0..random.between(2, 6) {
        let inputs = map_tokens(&lent.input);
        let bits = bits_of_instants(&decoded, &lent.state, &[inputs], random).concat();
        lent.scratch = old.unwrap_or_else(|| bits.clone());
        note_old_bits(met, &lent.scratch, &bits);
        let (_, after) = judge(met, &lent, random, 0)?;
        lent = InstantLent { state: after.state, ..lawful::instant(random, score.clone()) };
        old = Some(bits);
    }
    Ok(())
}

/// Wrong states, beside lawful and unlawful inputs.
pub fn unlawful_states(met: &mut Met, random: &mut Random, _: u64) -> Outcome {
    let score = scenes::score(random);
    let mut lent = lawful::instant(random, score);
    let decoded = Decoded::new(&lent.score);
    lent.state = scenes::unlawful_state(random, &decoded);
    if random.one_in(4) {
        lent.input = scenes::unlawful_input(random, &decoded);
    }
    judge_at_any_offset(met, &lent, random)
}

/// Inputs with unknown tokens, in running and aborted states at any number.
pub fn unlawful_inputs(met: &mut Met, random: &mut Random, _: u64) -> Outcome {
    let score = scenes::score(random);
    let mut lent = lawful::instant(random, score);
    lent.input = scenes::unlawful_input(random, &Decoded::new(&lent.score));
    lent.state = numbered(lent.state, scenes::any_number(random));
    judge_at_any_offset(met, &lent, random)
}

pub fn aborted_states(met: &mut Met, random: &mut Random, _: u64) -> Outcome {
    let score = scenes::score(random);
    let mut lent = lawful::instant(random, score);
    lent.state = numbered(state_bytes(ABORTED, []), scenes::any_number(random));
    judge_at_any_offset(met, &lent, random)
}

/// Damaged scores, at times with all else wrong too.
pub fn damaged_scores(met: &mut Met, random: &mut Random, _: u64) -> Outcome {
    let score = scenes::small_score(random);
    let mut lent = lawful::instant(random, score);
    if random.one_in(4) {
        lent.state = scenes::unlawful_state(random, &Decoded::new(&lent.score));
    }
    if random.one_in(4) {
        lent.input = scenes::dirt(random, MAP_BYTES);
    }
    scenes::damage_score(random, &mut lent.score);
    if random.one_in(4) {
        resize_one(random, &mut lent);
    }
    judge_at_any_offset(met, &lent, random)
}

/// Scores of the score check's generators, with circles and damage of every kind.
pub fn checked_scores(met: &mut Met, random: &mut Random, index: u64) -> Outcome {
    let lent = InstantLent {
        score: scenes::checked_score(random, index),
        state: numbered(state_bytes(RUNNING, [0]), scenes::any_number(random)),
        input: map_bytes(&[]),
        store: scenes::dirt(random, MAP_BYTES),
        output: scenes::dirt(random, MAP_BYTES),
        scratch: scenes::dirt(random, SCRATCH_BYTES),
    };
    judge_at_any_offset(met, &lent, random)
}

/// Any mixture of what may be wrong.
pub fn several_faults(met: &mut Met, random: &mut Random, _: u64) -> Outcome {
    let score = scenes::small_score(random);
    let mut lent = lawful::instant(random, score);
    let decoded = Decoded::new(&lent.score);
    lent.state = numbered(lent.state, scenes::any_number(random));
    if random.one_in(2) {
        lent.state = scenes::unlawful_state(random, &decoded);
    }
    if random.one_in(2) {
        lent.input = scenes::unlawful_input(random, &decoded);
    }
    if random.one_in(3) {
        resize_one(random, &mut lent);
    }
    if random.one_in(4) {
        scenes::damage_score(random, &mut lent.score);
    }
    judge_at_any_offset(met, &lent, random)
}

/// Any state and input map, of random bits: the scores have all the agents, tokens and rules that there can be; some
/// have a few facts among them.
pub fn full_scores(met: &mut Met, random: &mut Random, index: u64) -> Outcome {
    let facts = random.pick(&[0, 0, 1, 8]);
    let agents: Vec<u32> = (0..1024u32).map(|agent| full_agent(random, agent)).collect();
    let score = second::generate::Score {
        tokens: 256,
        ports: words::ports(random.below(2), 254 + random.below(2)),
        procedures: (0..64).map(|procedure| words::procedure(1023 - procedure)).collect(),
        rules: (0..256).map(|rule| full_rule(random, rule < facts)).collect(),
        agents,
    };
    let mut lent = lawful::instant(random, score.bytes());
    if index.is_multiple_of(2) {
        lent.input = scenes::dirt(random, MAP_BYTES);
        lent.state[AGENT_BYTES].copy_from_slice(&scenes::dirt(random, AGENT_BYTES.len()));
    }
    judge_at_any_offset(met, &lent, random)
}

fn full_rule(random: &mut Random, is_fact: bool) -> u32 {
    if is_fact {
        words::fact(random.below(256))
    } else {
        second::generate::rule(random, 256)
    }
}

/// Agents that call nothing but from under a next.
fn full_agent(random: &mut Random, agent: u32) -> u32 {
    let token = random.below(256);
    match (agent, random.below(6)) {
        (0, _) => words::call(random.below(64)),
        (1, _) => words::next(0),
        (_, 0) => words::parallel(random.between(1, agent - 1), random.between(1, agent - 1)),
        (_, 1) => words::when(random.between(1, agent - 1), token),
        (_, 2) => words::next(random.below(agent)),
        (_, 3) => words::unless(random.below(agent), token),
        (_, 4) => words::skip(),
        _ => words::tell(token),
    }
}

/// The numbers of the bits that are set.
fn bits(number: u64) -> Vec<usize> {
    (0..64).filter(|bit| number >> bit & 1 == 1).collect()
}

/// Every state and every input of a score that has every kind, in turn.
pub fn every_kind(met: &mut Met, random: &mut Random, index: u64) -> Outcome {
    let score = second::generate::every_kind();
    let states = 1 << score.agents.len();
    let mut lent = lawful::instant(random, score.bytes());
    lent.state = numbered(state_bytes(RUNNING, bits(index % states)), scenes::early_number(random));
    lent.input = map_bytes(&bits(index / states % (1 << score.tokens)));
    judge_at_any_offset(met, &lent, random)
}

/// Every state and every input of a very small score.
pub fn every_state_and_input(met: &mut Met, random: &mut Random, _: u64) -> Outcome {
    let score = scenes::least_score(random);
    let decoded = Decoded::new(&score);
    let mut lent = lawful::instant(random, score);
    for state in 0..1 << decoded.agents.len() {
        for input in 0..1 << decoded.tokens {
            lent.state = numbered(state_bytes(RUNNING, bits(state)), scenes::early_number(random));
            lent.input = map_bytes(&bits(input));
            judge_at_any_offset(met, &lent, random)?;
        }
    }
    Ok(())
}

/// Instants on one state buffer, with refused calls between them; the second engine keeps all copies.
pub fn sequences(met: &mut Met, random: &mut Random, _: u64) -> Outcome {
    let number = scenes::early_number(random);
    sequence_from(met, random, number)
}

/// The same up to the last number, and past it.
pub fn sequences_to_the_last(met: &mut Met, random: &mut Random, _: u64) -> Outcome {
    let number = LAST_NUMBER - random.between(1, 6);
    sequence_from(met, random, number)
}

fn sequence_from(met: &mut Met, random: &mut Random, number: u32) -> Outcome {
    let score = scenes::score(random);
    let decoded = Decoded::new(&score);
    let awake = scenes::agents(random, &decoded);
    let mut sequence = Sequence::start(&decoded, &awake, number, random);
    let mut state = numbered(state_bytes(RUNNING, awake), number);
    for _ in 0..random.between(2, 12) {
        let mut lent = lawful::instant(random, score.clone());
        lent.state = state;
        if random.one_in(5) {
            refused_between(met, random, &lent)?;
        }
        let (answer, after) = judge(met, &lent, random, 0)?;
        if number_of(&lent.state) == LAST_NUMBER {
            ensure(answer == refused(18, 0), &format!("both engines say {answer} at the last number"))?;
            met.note(PAST_THE_LAST);
        } else {
            let end = sequence.instant(&map_tokens(&lent.input), random);
            same_end(&sequence, &end, &after).map_err(|difference| format!("{difference}{}", shown(&lent)))?;
        }
        state = after.state;
    }
    Ok(())
}

pub const PAST_THE_LAST: &str = "an instant refused after those up to the last number";

/// A call that is refused, on the same state.
fn refused_between(met: &mut Met, random: &mut Random, lent: &InstantLent) -> Outcome {
    let mut refused = lent.clone();
    let scratch = random.below(SCRATCH_BYTES as u32);
    refused.scratch.truncate(scratch as usize);
    let (_, after) = judge(met, &refused, random, 0)?;
    ensure(after.state == lent.state, "a refused call changed the state")
}

/// The end that the copies came to is that of the instant call.
fn same_end(sequence: &Sequence, end: &End, after: &InstantLent) -> Outcome {
    let store = match end {
        End::Abort => vec![],
        End::Quiet { store, .. } => (0..store.len()).filter(|&token| store[token]).collect(),
    };
    ensure(sequence.state().bytes() == after.state, "the copies awake are not the state's agents")?;
    ensure(map_bytes(&store) == after.store, "the store of the order is not the store map")
}

/// Where the points that orders pass through are more, another instant is tried.
const MOST_POINTS: usize = 1_000;

/// Every order of a tiny score's instant ends as the library answers, and none is longer than its weight.
pub fn every_order(met: &mut Met, random: &mut Random, _: u64) -> Outcome {
    let score = scenes::tiny_score(random);
    let decoded = Decoded::new(&score);
    let (lent, ends) = loop {
        let lent = running(random, &score, &decoded);
        if let Some(ends) = ends_of_orders(random, &decoded, &lent)? {
            break (lent, ends);
        }
    };
    let (_, after) = judge(met, &lent, random, 0)?;
    let mut ends = ends.into_iter();
    let (Some(end), None) = (ends.next(), ends.next()) else {
        return Err(format!("orders end differently, or never{}", shown(&lent)));
    };
    let got = library::instant(&lent, 0, GUARDS[0])?;
    same_end(&Sequence::after(&decoded, &end, number_of(&lent.state)), &end, &after)
        .and_then(|()| same(got.0, answer_of(&end)))
        .map_err(|difference| format!("{difference}{}", shown(&lent)))
}

fn running(random: &mut Random, score: &[u8], decoded: &Decoded) -> InstantLent {
    let mut lent = lawful::instant(random, score.to_vec());
    lent.state = numbered(state_bytes(RUNNING, scenes::agents(random, decoded)), scenes::early_number(random));
    lent
}

/// The ends of all orders that start with one copy or two of each agent awake.
fn ends_of_orders(random: &mut Random, score: &Decoded, lent: &InstantLent) -> Result<Option<HashSet<End>>, String> {
    let Some(State { awake: Awake::Running(awake), .. }) = State::read(score, &lent.state) else { return Ok(None) };
    let copies: Vec<_> = awake.iter().flat_map(|&agent| vec![agent; random.pick(&[1, 1, 2])]).collect();
    every_order::ends(Order::start(score, &copies, &map_tokens(&lent.input)), MOST_POINTS)
}

fn answer_of(end: &End) -> Answer {
    let count = match end {
        End::Abort => 0,
        End::Quiet { reduced, .. } => reduced.len() as u32,
    };
    Answer::Instant { status: end.status(), count }
}

/// The second engine's own two ways end alike, from any number of copies.
pub fn with_and_without_copies(met: &mut Met, random: &mut Random, _: u64) -> Outcome {
    let score = scenes::score(random);
    let decoded = Decoded::new(&score);
    let lent = running(random, &score, &decoded);
    let (_, after) = judge(met, &lent, random, 0)?;
    let Some(State { awake: Awake::Running(awake), number }) = State::read(&decoded, &lent.state) else {
        return Ok(());
    };
    let awake: Vec<_> = awake.into_iter().collect();
    let inputs = map_tokens(&lent.input);
    for end in [
        Sequence::start(&decoded, &awake, number, random).instant(&inputs, random),
        engine::instant_without_copies(&decoded, &awake, &inputs, random),
    ] {
        same_end(&Sequence::after(&decoded, &end, number), &end, &after)
            .map_err(|difference| format!("{difference}{}", shown(&lent)))?;
    }
    Ok(())
}

/// The input map is a part of the score's own bytes.
pub fn input_on_score(met: &mut Met, random: &mut Random, _: u64) -> Outcome {
    let score = scenes::score(random);
    if score.len() < MAP_BYTES {
        return Ok(());
    }
    let input_at = random.below((score.len() - MAP_BYTES) as u32 + 1) as usize;
    let mut lent = lawful::instant(random, score);
    lent.input = lent.score[input_at..][..MAP_BYTES].to_vec();
    let expected = instant_call(&lent, random);
    let got = overlap::instant_on_score(&lent, input_at);
    met.count("instant", &lent.score, got.0);
    same_call(&expected, &got).map_err(|difference| format!("{difference}{}", shown(&lent)))
}

/// Long chains of rules, most of which nothing but their highest token starts.
pub fn long_chains(met: &mut Met, random: &mut Random, _: u64) -> Outcome {
    let score = chains::long_chain(random);
    let mut lent = lawful::instant(random, score);
    if !random.one_in(4) {
        lent.input = map_bytes(&chains::highest_or_none(random, Decoded::new(&lent.score).tokens));
    }
    judge_at_any_offset(met, &lent, random)
}
