//! Every short list and journal.

use crate::judge;
use second::calls::{JournalCheckLent, RunLent};
use second::generate::Score;
use second::lent::*;
use second::random::Random;
use second::scenes;
use second::tests::{Met, Outcome};
use second::words::*;

/// Tells token 1 at every instant but those after one that was told it.
fn score() -> Score {
    Score {
        tokens: 2,
        ports: ports(0, 1),
        agents: vec![tell(1), unless(0, 1), call(0), next(2), parallel(1, 3)],
        procedures: vec![procedure(4)],
        rules: vec![],
    }
}

/// The words that lists and journals are made of, with one token too high.
fn alphabet() -> Vec<u32> {
    let instants = (0..4).map(instant_word);
    let inputs = (0..3).map(input_word);
    let outputs = (0..3).map(output_word);
    instants.chain(inputs).chain(outputs).collect()
}

/// The sequences of words, numbered from the empty one on, the shorter ones first.
fn words_of(index: u64) -> Vec<u32> {
    let alphabet = alphabet();
    let base = alphabet.len() as u64;
    let mut number = index;
    let mut words = Vec::new();
    while number > 0 {
        number -= 1;
        words.push(alphabet[(number % base) as usize]);
        number /= base;
    }
    words
}

/// How many sequences of at most four words there are.
pub const COUNT: u64 = 1 + 10 + 100 + 1_000 + 10_000;

pub fn every_list(met: &mut Met, random: &mut Random, index: u64) -> Outcome {
    let lent = RunLent {
        score: score().bytes(),
        state: numbered(state_bytes(RUNNING, [4]), scenes::any_number(random)),
        inputs: to_bytes(&words_of(index)),
        journal: scenes::dirt(random, 40),
        scratch: scenes::dirt(random, SCRATCH_BYTES),
    };
    judge::run(met, random, &lent).map(|_| ())
}

pub fn every_journal(met: &mut Met, random: &mut Random, index: u64) -> Outcome {
    let lent = JournalCheckLent {
        score: score().bytes(),
        journal: to_bytes(&words_of(index)),
        scratch: scenes::dirt(random, SCRATCH_BYTES),
    };
    judge::journal_check(met, random, &lent).map(|_| ())
}
