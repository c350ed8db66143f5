//! Holds the library's runs and journal checks to the second engine, between three kinds of guards.

use crate::library;
use second::answer::Answer;
use second::calls::{journal_check_call, run_call, JournalCheckLent, RunLent};
use second::guarded::guards;
use second::random::Random;
use second::tests::{ensure, same_call, shown, Met, Outcome};

pub fn run(met: &mut Met, random: &mut Random, lent: &RunLent) -> Result<(Answer, RunLent), String> {
    let expected = run_call(lent, random);
    let offset = random.below(8) as usize;
    for guard in guards(random) {
        let got = library::run(lent, offset, guard)?;
        met.count("run", &lent.score, got.0);
        same_call(&expected, &got).map_err(|difference| format!("run: {difference}{}", shown(lent)))?;
    }
    Ok(expected)
}

pub fn journal_check(met: &mut Met, random: &mut Random, lent: &JournalCheckLent) -> Result<Answer, String> {
    let expected = journal_check_call(lent, random);
    let offset = random.below(8) as usize;
    for guard in guards(random) {
        let got = library::journal_check(lent, offset, guard)?;
        met.count("journal check", &lent.score, got.0);
        same_call(&expected, &got).map_err(|difference| format!("journal check: {difference}{}", shown(lent)))?;
    }
    Ok(expected.0)
}

/// Holds the second engine's answer, which the library's is equal to, to what is known of it.
pub fn known(answer: Answer, is_known: bool) -> Outcome {
    ensure(is_known, &format!("both engines say {answer}"))
}
