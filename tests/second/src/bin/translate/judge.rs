//! Holds the library's translations to the second engine's, between three kinds of guards.

use crate::library;
use second::answer::{Answer, ACCEPTED};
use second::calls::{translate_call, TranslateLent};
use second::draft::WATCH;
use second::generate::Trial;
use second::guarded::guards;
use second::lent::PLAIN_BYTES;
use second::oracle;
use second::random::Random;
use second::scenes;
use second::tests::{ensure, same_call, shown, Met, Outcome};

/// A draft, and a plain buffer of the right length, dirty.
pub fn lent(random: &mut Random, draft: Vec<u8>) -> TranslateLent {
    TranslateLent { draft, plain: scenes::dirt(random, PLAIN_BYTES) }
}

pub fn translate(met: &mut Met, random: &mut Random, lent: &TranslateLent) -> Result<(Answer, TranslateLent), String> {
    let expected = translate_call(lent);
    let offset = random.below(8) as usize;
    for guard in guards(random) {
        let got = library::translate(lent, offset, guard)?;
        met.count("translate", &lent.draft, got.0);
        note_watch(met, &lent.draft, expected.0);
        same_call(&expected, &got).map_err(|difference| format!("translate: {difference}{}", shown(lent)))?;
    }
    Ok(expected)
}

/// Notes an answer that is about a watch: a draft that has one is accepted, or is too large, or 4, 5 or 6 is at one.
fn note_watch(met: &mut Met, draft: &[u8], answer: Answer) {
    let words = oracle::words(draft);
    let mut watches = oracle::agent_places(&words).filter(|&at| oracle::kind(words[at]) == WATCH);
    let is_about = match answer {
        Answer::Refused { number: 4..=6, value } => watches.any(|at| at as u64 == value),
        Answer::Refused { number: 16, .. } | Answer::Accepted(_) => watches.next().is_some(),
        _ => false,
    };
    if is_about {
        met.note(&about_watch(answer.number()));
    }
}

/// What a number about a watch is noted as.
pub fn about_watch(number: u32) -> String {
    format!("translate: number {number} about a watch")
}

/// Holds the second engine's answer, which the library's is equal to, to what is known of it. Of an accepted draft it
/// may be known only that it is accepted.
pub fn known(answer: Answer, known: Answer) -> Outcome {
    let is_known = answer == known || known == ACCEPTED && [0, 16].contains(&answer.number());
    ensure(is_known, &format!("both translators say {answer}, not {known}"))
}

pub fn trial(met: &mut Met, random: &mut Random, trial: Trial) -> Outcome {
    let lent = lent(random, trial.score);
    let (answer, _) = translate(met, random, &lent)?;
    match trial.known {
        Some(wanted) => known(answer, wanted).map_err(|difference| format!("{difference}{}", shown(&lent))),
        None => Ok(()),
    }
}
