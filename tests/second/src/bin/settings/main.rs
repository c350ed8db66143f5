//! Holds the library's score_settings to the second engine: every answer, and every byte of every buffer. And holds its
//! counts to the library's own instants.

mod cases;
#[path = "../instant/library.rs"]
mod instant;
mod judge;
mod library;
mod promises;
mod refusals;
mod trials;

use second::scenes::STATE_LENGTHS;
use second::settings::{FAULTS, MOST_SWITCHES};
use second::tests::{self, Category, Tests, Trial};
use std::process::ExitCode;

const CATEGORIES: &[Category<Trial>] = &[
    ("any scores", 15_000, trials::any_scores),
    ("scores without facts", 6_000, trials::scores_without_facts),
    ("large scores", 400, trials::large_scores),
    ("special scores", 1_500, trials::special_scores),
    ("switchboards", 40_000, trials::switchboards),
    ("every k of every number of switches", 6 * (MOST_SWITCHES as u64 + 1), trials::every_k),
    ("every list of switches of very small scores", 100, trials::every_list),
    ("aborted states", 4_000, trials::aborted_states),
    ("the switches are a part of the score", 3_000, trials::switches_on_score),
    ("sixteen switches, and more", 1_200, refusals::too_many),
    ("far too many switches", 500, refusals::far_too_many),
    ("a switch repeated", 1_500, refusals::repeated),
    ("the last token, and one past it", 1_500, refusals::unknown),
    ("all switches pressed, and more", 1_500, refusals::k_too_large),
    ("any switches", 4_000, refusals::dirty),
    ("states of every length", 7_200, refusals::state_lengths),
    ("unlawful states", 3_000, refusals::unlawful_states),
    ("damaged scores", 12_000, refusals::damaged_scores),
    ("scores of the score check", 12_000, refusals::checked_scores),
    ("several faults", 8_000, refusals::several_faults),
    ("the switches in another order", 5_000, promises::order),
    ("each setting as an instant", 6_000, promises::own_instants),
    ("none pressed as an instant without input", 2_000, promises::none_pressed),
    ("the state at another number", 3_000, promises::numbers),
];

fn test(tests: &mut Tests) {
    tests.cases(cases::all());
    tests.categories(CATEGORIES, |trial, met, random, index| trial(met, random, index));
    tests.require_numbers("settings", (0..=9).chain([17]));
    tests.require_facts("settings");
    tests.require_lengths("settings", &STATE_LENGTHS);
    FAULTS.iter().chain(&promises::AT_LAST).for_each(|what| tests.require_noted(what));
    judge::ENDS.iter().for_each(|(_, ends)| tests.require_noted(ends));
}

fn main() -> ExitCode {
    tests::run(test)
}
