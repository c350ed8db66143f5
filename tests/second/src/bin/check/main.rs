//! Holds the library's score_check to a check written from the document alone, over many generated scores.

mod cases;
mod library;

use second::answer::same;
use second::generate::Trial;
use second::random::Random;
use second::tests::{self, case, hex, Case, Category, Met, Outcome, Tests};
use second::{circles, generate, oracle};
use std::process::ExitCode;

/// Holds the library's answer to the document's, and to the one known if there is one.
fn judge(met: &mut Met, trial: &Trial, offset: usize) -> Outcome {
    let expected = oracle::check(&trial.score);
    if let Some(known) = trial.known.filter(|&known| known != expected) {
        return Err(format!("the test's own check says {expected}, not {known}"));
    }
    let answer = library::check(&trial.score, offset)?;
    met.count("check", &trial.score, answer);
    same(answer, expected)
}

type Generate = fn(&mut Random, u64) -> Trial;

const CATEGORIES: &[Category<Generate>] = &[
    ("valid, small", 20_000, generate::valid_small),
    ("valid, middling", 10_000, generate::valid_middling),
    ("valid, of any size", 3_000, generate::valid_any),
    ("valid, with facts", 10_000, generate::valid_with_facts),
    ("sizes at their limits", 2 * generate::BOUNDARY_SIZES, generate::boundary_sizes),
    ("lengths about their limits", 15_000, generate::lengths),
    ("far too long", 200, generate::far_too_long),
    ("random bytes", 10_000, generate::random_bytes),
    ("head damaged", 10_000, generate::damaged_head),
    ("one word damaged", 40_000, generate::one_word_damaged),
    ("one bit damaged", 40_000, generate::one_bit_damaged),
    ("one field at its limit", 30_000, generate::one_field_at_its_limit),
    ("a fact damaged", 10_000, generate::fact_damaged),
    ("several faults", 20_000, generate::several_faults),
    ("every bit", 32 * 20, generate::every_bit),
    ("every bit of a fact", 32 * 5, generate::every_bit_of_fact),
    ("every kind at every word", 16 * 20, generate::every_kind_everywhere),
    ("one circle", 6_000, circles::one_circle),
    ("guarded circle", 6_000, circles::guarded_circle),
    ("two circles", 3_000, circles::two_circles),
    ("chain", 6_000, circles::chain),
    ("chain into a circle", 6_000, circles::chain_into_circle),
    ("any calls", 6_000, circles::any_calls),
    ("any calls, damaged", 6_000, circles::any_calls_damaged),
];

fn judge_generated(generate: &Generate, met: &mut Met, random: &mut Random, index: u64) -> Outcome {
    let trial = generate(random, index);
    judge(met, &trial, index as usize % 8).map_err(|difference| format!("{difference}\n{}", hex(&trial.score)))
}

fn at_every_offset(score: cases::Score) -> Case {
    let trial = Trial::known(score.bytes, score.answer);
    case(score.name, move |met| (0..8).try_for_each(|offset| judge(met, &trial, offset)))
}

fn test(tests: &mut Tests) {
    tests.cases(cases::all().into_iter().map(at_every_offset).collect());
    tests.categories(CATEGORIES, judge_generated);
    tests.require_numbers("check", 0..=7);
    tests.require_facts("check");
}

fn main() -> ExitCode {
    tests::run(test)
}
