//! Generated drafts, whose translations are compared byte for byte.

use crate::judge;
use second::answer::refused;
use second::draft::{acts, damaged, limits, scenes};
use second::generate;
use second::lent::PLAIN_BYTES;
use second::random::Random;
use second::tests::{ensure, shown, Met, Outcome};

fn of(met: &mut Met, random: &mut Random, draft: Vec<u8>) -> Outcome {
    let lent = judge::lent(random, draft);
    judge::translate(met, random, &lent).map(|_| ())
}

pub fn acts(met: &mut Met, random: &mut Random, _: u64) -> Outcome {
    let draft = acts::many(random);
    of(met, random, draft)
}

pub fn any_drafts(met: &mut Met, random: &mut Random, _: u64) -> Outcome {
    let draft = scenes::any_draft(random);
    of(met, random, draft)
}

pub fn large_drafts(met: &mut Met, random: &mut Random, _: u64) -> Outcome {
    let draft = scenes::large_draft(random);
    of(met, random, draft)
}

pub fn special_drafts(met: &mut Met, random: &mut Random, _: u64) -> Outcome {
    let draft = scenes::special_draft(random);
    of(met, random, draft)
}

/// What is on no path is dropped, and nothing else is changed.
pub fn scores(met: &mut Met, random: &mut Random, _: u64) -> Outcome {
    let score = second::scenes::score(random);
    of(met, random, score)
}

/// A translation is translated to itself.
pub fn translations(met: &mut Met, random: &mut Random, _: u64) -> Outcome {
    let draft = scenes::any_draft(random);
    let lent = judge::lent(random, draft);
    let (answer, after) = judge::translate(met, random, &lent)?;
    let second::answer::Answer::Accepted(length) = answer else { return Ok(()) };
    let lent = judge::lent(random, after.plain[..length as usize].to_vec());
    let (again, after) = judge::translate(met, random, &lent)?;
    let is_same = again == answer && after.plain[..length as usize] == lent.draft;
    ensure(is_same, &format!("a translation is translated to something else{}", shown(&lent)))
}

/// What a limit's side is noted as.
pub fn side_name(limit: usize, past: bool) -> String {
    format!("{} {}", limits::NAMES[limit], if past { "one past their limit" } else { "at their limit" })
}

/// One of the sizes at its limit, or one past it.
pub fn size_at_limit(met: &mut Met, random: &mut Random, index: u64) -> Outcome {
    let (limit, past) = limits::side(index);
    let trial = limits::one(random, index);
    judge::trial(met, random, trial)?;
    met.note(&side_name(limit, past));
    Ok(())
}

/// All sizes at their limits, or one of them one past.
pub fn sizes_at_limits(met: &mut Met, random: &mut Random, index: u64) -> Outcome {
    let trial = limits::all(random, index);
    judge::trial(met, random, trial)
}

pub fn diamonds(met: &mut Met, random: &mut Random, index: u64) -> Outcome {
    let trial = limits::diamond(random, index);
    judge::trial(met, random, trial)
}

pub fn diamonds_of_calls(met: &mut Met, random: &mut Random, index: u64) -> Outcome {
    let trial = limits::diamond_of_calls(random, index);
    judge::trial(met, random, trial)
}

/// Any draft with a plain buffer of another length, which is refused before the sizes are known.
pub fn other_lengths(met: &mut Met, random: &mut Random, index: u64) -> Outcome {
    let draft = match random.below(3) {
        0 => limits::diamond(random, index).score,
        _ => scenes::any_draft(random),
    };
    let mut lent = judge::lent(random, draft);
    second::scenes::resize(random, &mut lent.plain);
    let (answer, _) = judge::translate(met, random, &lent)?;
    judge::known(answer, refused(8, 0))
}

/// Faults of the draft, with a plain buffer of any length.
pub fn several_faults(met: &mut Met, random: &mut Random, index: u64) -> Outcome {
    let trial = random.pick(&[damaged::watch, damaged::one_word, damaged::checked, damaged::accepted])(random, index);
    let mut lent = judge::lent(random, trial.score);
    lent.plain.truncate(random.below(PLAIN_BYTES as u32 + 1) as usize);
    judge::translate(met, random, &lent).map(|_| ())
}

macro_rules! of_trials {
    ($($name:ident: $make:expr;)*) => {
        $(pub fn $name(met: &mut Met, random: &mut Random, index: u64) -> Outcome {
            let trial = $make(random, index);
            judge::trial(met, random, trial)
        })*
    };
}

of_trials! {
    watch_damaged: damaged::watch;
    watch_elsewhere: damaged::watch_elsewhere;
    one_word_damaged: damaged::one_word;
    several_words_damaged: damaged::several_words;
    lengths: damaged::lengths;
    boundary_sizes: damaged::boundary_sizes;
    checked: damaged::checked;
    accepted: damaged::accepted;
    every_bit: damaged::every_bit;
    every_kind_everywhere: damaged::every_kind_everywhere;
    far_too_long: generate::far_too_long;
}
