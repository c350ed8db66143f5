//! Lists of calls on one state, as the third demand tells them: instants and runs, stopped ones and refused ones.

use crate::instant;
use crate::judge;
use crate::runs::written;
use second::answer::same;
use second::calls::{instant_call, InstantLent, RunLent};
use second::decoded::{Decoded, Token};
use second::engine::{output, End};
use second::guarded::GUARDS;
use second::lent::*;
use second::random::Random;
use second::sequence::Sequence;
use second::tests::{ensure, shown, Met, Outcome};
use second::{lawful, scenes};

/// The state after each call is what the orders of its instants leave awake.
pub fn any_calls(met: &mut Met, random: &mut Random, _: u64) -> Outcome {
    let number = scenes::early_number(random);
    calls_from(met, random, number)
}

/// The same up to the last number, and past it.
pub fn to_the_last(met: &mut Met, random: &mut Random, _: u64) -> Outcome {
    let number = LAST_NUMBER - random.below(12);
    calls_from(met, random, number)
}

fn calls_from(met: &mut Met, random: &mut Random, number: u32) -> Outcome {
    let score = scenes::score(random);
    let decoded = Decoded::new(&score);
    let awake = scenes::agents(random, &decoded);
    let mut sequence = Sequence::start(&decoded, &awake, number, random);
    let mut state = numbered(state_bytes(RUNNING, awake), number);
    for _ in 0..random.between(1, 8) {
        state = match random.below(3) {
            0 => one_instant(met, random, &score, state, &mut sequence)?,
            _ => one_run(met, random, &score, state, &mut sequence)?,
        };
        ensure(sequence.state().bytes() == state, "the copies awake and the instants run are not the state's")?;
    }
    Ok(())
}

fn one_instant(
    met: &mut Met,
    random: &mut Random,
    score: &[u8],
    state: Vec<u8>,
    sequence: &mut Sequence,
) -> Result<Vec<u8>, String> {
    let lent = InstantLent { state, ..lawful::instant(random, score.to_vec()) };
    let expected = instant_call(&lent, random);
    let got = instant::instant(&lent, random.below(8) as usize, random.pick(&GUARDS))?;
    met.count("instant", &lent.score, got.0);
    same(got.0, expected.0).map_err(|difference| format!("{difference}{}", shown(&lent)))?;
    if number_of(&lent.state) < LAST_NUMBER {
        sequence.instant(&map_tokens(&lent.input), random);
    }
    Ok(got.1.state)
}

/// A run, at times with too little room or refused; its journal shows the ends of the orders.
fn one_run(
    met: &mut Met,
    random: &mut Random,
    score: &[u8],
    state: Vec<u8>,
    sequence: &mut Sequence,
) -> Result<Vec<u8>, String> {
    let decoded = Decoded::new(score);
    let list = scenes::instants(random, &decoded, 5);
    let mut lent = RunLent {
        score: score.to_vec(),
        state,
        inputs: list_bytes(&list),
        journal: vec![0; 4096],
        scratch: scenes::dirt(random, SCRATCH_BYTES),
    };
    match random.below(4) {
        0 => lent.journal.truncate(random.below(64) as usize),
        1 => lent.inputs.extend([0; 3]),
        _ => {}
    }
    let (_, after) = judge::run(met, random, &lent)?;
    let journal = written(&after.journal);
    for (words, inputs) in instants(journal).into_iter().zip(&list) {
        let end = sequence.instant(inputs, random);
        if journal_of(&decoded, inputs, &end) != journal[4 * words.start..4 * words.end] {
            return Err(format!("the journal does not show the end of an order{}", shown(&lent)));
        }
    }
    Ok(after.state)
}

fn journal_of(score: &Decoded, inputs: &[Token], end: &End) -> Vec<u8> {
    let outputs: Vec<Token> = match end {
        End::Abort => vec![],
        End::Quiet { store, .. } => output(store, &score.ports),
    };
    instant_bytes(end.status(), inputs, &outputs)
}
