//! Holds the library's score_translate to a translator written from the document alone: every answer, and every byte of
//! both buffers. And holds the library's runs of translations to drafts that are played by their own definition.

mod cases;
#[path = "../check/library.rs"]
mod check;
#[path = "../instant/library.rs"]
mod instant;
mod judge;
mod library;
mod plays;
#[path = "../run/library.rs"]
mod run;
mod trials;

use second::generate::BOUNDARY_SIZES;
use second::tests::{self, Category, Tests, Trial};
use std::process::ExitCode;

const CATEGORIES: &[Category<Trial>] = &[
    ("acts", 10_000, trials::acts),
    ("any drafts", 10_000, trials::any_drafts),
    ("large drafts", 300, trials::large_drafts),
    ("special drafts", 3_000, trials::special_drafts),
    ("scores without watches", 5_000, trials::scores),
    ("translations translated again", 3_000, trials::translations),
    ("sizes at their limits and one past", 8 * 1_000, trials::size_at_limit),
    ("all sizes at their limits", 8 * 100, trials::sizes_at_limits),
    ("diamonds", 600, trials::diamonds),
    ("diamonds of calls", 600, trials::diamonds_of_calls),
    ("plain buffers of other lengths", 3_000, trials::other_lengths),
    ("watches damaged", 4_000, trials::watch_damaged),
    ("watches that are no agents", 2_000, trials::watch_elsewhere),
    ("one word damaged", 10_000, trials::one_word_damaged),
    ("several words damaged", 5_000, trials::several_words_damaged),
    ("lengths about their limits", 3_000, trials::lengths),
    ("sizes of drafts at their limits", 2 * BOUNDARY_SIZES, trials::boundary_sizes),
    ("scores of the score check", 5_000, trials::checked),
    ("accepted scores of the score check", 3_000, trials::accepted),
    ("every bit", 32 * 21, trials::every_bit),
    ("every kind at every word", 16 * 21, trials::every_kind_everywhere),
    ("far too long", 50, trials::far_too_long),
    ("several faults", 5_000, trials::several_faults),
    ("acts played", 10_000, plays::acts),
    ("any drafts played", 6_000, plays::any_drafts),
    ("special drafts played", 3_000, plays::special_drafts),
    ("recursion played", 3_000, plays::recursion),
    ("large drafts played", 100, plays::large_drafts),
    ("long plays", 30, plays::long),
    ("drafts in the other calls", 2_000, plays::other_calls),
    ("journals of drafts", 5_000, plays::journals),
];

fn test(tests: &mut Tests) {
    tests.cases(cases::all());
    tests.categories(CATEGORIES, |trial, met, random, index| trial(met, random, index));
    tests.require_numbers("translate", (0..=8).chain([16]));
    tests.require_facts("translate");
    for number in [0, 4, 5, 6, 16] {
        tests.require_noted(&judge::about_watch(number));
    }
    for limit in 0..4 {
        tests.require_noted(&trials::side_name(limit, false));
        tests.require_noted(&trials::side_name(limit, true));
    }
    for what in plays::MET {
        tests.require_noted(what);
    }
    tests.require_noted(plays::REFUSED_BY_ALL);
    tests.require_noted(plays::OLD_JOURNAL);
}

fn main() -> ExitCode {
    tests::run(test)
}
