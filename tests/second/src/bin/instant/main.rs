//! Holds the library's score_instant to the second engine: every answer, and every byte of every buffer.

mod cases;
mod clash_cases;
mod clash_trials;
mod library;
mod number_cases;
mod number_trials;
mod overlap;
mod scratch_cases;
mod trials;

use second::clash::{CAUSES, PORTS};
use second::scenes::{SCRATCH_LENGTHS, STATE_LENGTHS};
use second::tests::{self, Category, Tests, Trial};
use std::process::ExitCode;

const CATEGORIES: &[Category<Trial>] = &[
    ("any scores", 40_000, trials::any_scores),
    ("scores without facts", 20_000, trials::scores_without_facts),
    ("large scores", 1_500, trials::large_scores),
    ("special scores", 6_000, trials::special_scores),
    ("full scores", 600, trials::full_scores),
    ("every state and input of every kind", 1 << 16, trials::every_kind),
    ("every state and input of very small scores", 200, trials::every_state_and_input),
    ("sequences of instants", 10_000, trials::sequences),
    ("sequences of instants to the last number and past it", 2_000, trials::sequences_to_the_last),
    ("every order of tiny scores", 8_000, trials::every_order),
    ("orders with and without copies", 10_000, trials::with_and_without_copies),
    ("aborted states", 4_000, trials::aborted_states),
    ("the input map is a part of the score", 3_000, trials::input_on_score),
    ("buffers of other lengths", 10_000, trials::other_lengths),
    ("unlawful states", 10_000, trials::unlawful_states),
    ("unlawful inputs", 8_000, trials::unlawful_inputs),
    ("damaged scores", 15_000, trials::damaged_scores),
    ("scores of the score check", 12_000, trials::checked_scores),
    ("several faults", 10_000, trials::several_faults),
    ("long chains of rules", 1_500, trials::long_chains),
    ("scratches of every length", 7_200, trials::scratch_lengths),
    ("scratches that hold the bits of the instant before", 4_000, trials::old_bits),
    ("clashes in turn with other instants", 15_000, clash_trials::in_turn),
    ("states of every length", 7_200, trials::state_lengths),
    ("instants at every kind of number", 20_400, number_trials::at_numbers),
    ("what else is wrong at the last number", 5_200, number_trials::with_a_fault),
];

fn test(tests: &mut Tests) {
    tests.cases(cases::all());
    tests.cases(scratch_cases::all());
    tests.cases(clash_cases::all());
    tests.cases(number_cases::all());
    tests.categories(CATEGORIES, |trial, met, random, index| trial(met, random, index));
    tests.require_numbers("instant", (0..=10).chain([18]));
    tests.require_facts("instant");
    tests.require_statuses();
    tests.require_lengths("instant", &SCRATCH_LENGTHS);
    tests.require_lengths("instant", &STATE_LENGTHS);
    trials::OLD_BITS.iter().for_each(|what| tests.require_noted(what));
    number_trials::met().iter().for_each(|what| tests.require_noted(what));
    tests.require_noted(trials::PAST_THE_LAST);
    CAUSES.iter().chain(&PORTS).chain(&clash_trials::MET).for_each(|what| tests.require_noted(what));
}

fn main() -> ExitCode {
    tests::run(test)
}
