//! Holds the library's score_run and score_journal_check to the second engine: every answer, and every byte of every
//! buffer.

mod added_fact;
mod calls_in_turn;
mod cases;
mod clash_cases;
mod clash_trials;
#[path = "../instant/library.rs"]
mod instant;
mod journals;
mod judge;
mod library;
mod number_cases;
mod number_trials;
mod runs;
mod scratch_cases;
mod short;

use second::clash::{CAUSES, PORTS};
use second::scenes::{SCRATCH_LENGTHS, STATE_LENGTHS};
use second::tests::{self, Category, Tests, Trial};
use std::process::ExitCode;

const CATEGORIES: &[Category<Trial>] = &[
    ("runs with room enough", 15_000, runs::accepted),
    ("runs of scores without facts", 5_000, runs::of_scores_without_facts),
    ("runs of special scores", 800, runs::of_special_scores),
    ("long runs", 30, runs::long),
    ("runs with any room", 10_000, runs::with_any_room),
    ("runs with every room", 100, runs::with_every_room),
    ("lists cut at every byte", 300, runs::cut_at_every_byte),
    ("every short list", short::COUNT, short::every_list),
    ("every short journal", short::COUNT, short::every_journal),
    ("lists with every bit damaged", 100, runs::every_bit_damaged),
    ("damaged lists", 10_000, runs::of_damaged_lists),
    ("lists of random bytes", 2_000, runs::list_of_random_bytes),
    ("runs with several faults", 10_000, runs::several_faults),
    ("runs of scores of the score check", 12_000, runs::of_checked_scores),
    ("runs split", 4_000, runs::split),
    ("runs split about the last number", 2_000, runs::split_at_the_last),
    ("journals of runs", 15_000, journals::accepted),
    ("journals of scores without facts", 5_000, journals::of_scores_without_facts),
    ("journals of special scores", 800, journals::of_special_scores),
    ("long journals", 30, journals::long),
    ("journals with every status changed", 1_000, journals::every_status_changed),
    ("journals with every output changed", 600, journals::every_output_changed),
    ("journals with an output added", 2_000, journals::output_added),
    ("journals with every input changed", 600, journals::every_input_changed),
    ("journals cut at every byte", 200, journals::cut_at_every_byte),
    ("journals with every bit damaged", 60, journals::every_bit_damaged),
    ("damaged journals", 10_000, journals::damaged),
    ("journals from another start", 4_000, journals::of_another_start),
    ("journals with several faults", 10_000, journals::several_faults),
    ("journals of scores of the score check", 12_000, journals::of_checked_scores),
    ("calls in turn on one state", 6_000, calls_in_turn::any_calls),
    ("calls in turn on one state to the last number and past it", 2_000, calls_in_turn::to_the_last),
    ("a fact added of what is always in the store", 4_000, added_fact::changes_nothing),
    ("runs of long chains of rules", 500, runs::of_long_chains),
    ("journals of long chains of rules", 500, journals::of_long_chains),
    ("runs with scratches of every length", 7_200, runs::with_scratch_lengths),
    ("journals with scratches of every length", 7_200, journals::with_scratch_lengths),
    ("runs on the bits of an instant", 3_000, runs::on_old_bits),
    ("journals on the bits of an instant", 3_000, journals::on_old_bits),
    ("runs with clashes", 5_000, clash_trials::runs),
    ("runs that end at a clash", 1_500, clash_trials::rooms),
    ("journals that show outputs in every clash, and those without them", 2_000, clash_trials::old_journals),
    ("journals that show outputs in one of several clashes", 3_000, clash_trials::one_clash_sent),
    ("journals with an output added to a clash", 2_000, clash_trials::output_added),
    ("journals with a wrong instant before a clash that is sent", 2_500, clash_trials::wrong_before),
    ("journals that lack outputs of a quiet instant", 5_000, clash_trials::outputs_taken_out),
    ("runs with states of every length", 7_200, runs::with_state_lengths),
    ("runs to the last number, in any room", 2_400, number_trials::to_the_last),
    ("what else is wrong with a run at the last number", 6_000, number_trials::with_a_fault),
];

fn test(tests: &mut Tests) {
    tests.cases(number_cases::all());
    tests.cases(scratch_cases::all());
    tests.cases(clash_cases::all());
    tests.cases(cases::all());
    tests.categories(CATEGORIES, |trial, met, random, index| trial(met, random, index));
    tests.require_numbers("run", (0..=9).chain([12, 13, 15, 18]));
    tests.require_numbers("journal check", (0..=8).chain(12..=14));
    tests.require_facts("run");
    tests.require_facts("journal check");
    tests.require_facts_added();
    tests.require_lengths("run", &SCRATCH_LENGTHS);
    tests.require_lengths("run", &STATE_LENGTHS);
    tests.require_lengths("journal check", &SCRATCH_LENGTHS);
    number_trials::met().iter().for_each(|what| tests.require_noted(what));
    CAUSES.iter().chain(&PORTS).chain(&clash_trials::MET).for_each(|what| tests.require_noted(what));
}

fn main() -> ExitCode {
    tests::run(test)
}
