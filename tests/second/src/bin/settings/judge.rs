//! Holds the library's counts of settings to the second engine, between three kinds of guards.

use crate::library;
use second::answer::Answer;
use second::calls::{settings_call, SettingsLent};
use second::guarded::guards;
use second::random::Random;
use second::settings::binomial;
use second::tests::{ensure, same_call, shown, Met, Outcome};

/// The statuses that the settings of an accepted call can end with. None has clashes beside aborts: a clash answers
/// every when, and so leads to each abort that there is to be reached.
pub const ENDS: [([bool; 3], &str); 5] = [
    ([true, false, false], "all settings quiet"),
    ([false, true, false], "all settings a clash"),
    ([false, false, true], "all settings aborted"),
    ([true, true, false], "settings quiet and a clash"),
    ([true, false, true], "settings quiet and aborted"),
];

pub fn judge(met: &mut Met, random: &mut Random, lent: &SettingsLent) -> Result<Answer, String> {
    let expected = settings_call(lent, random);
    let offset = random.below(8) as usize;
    for guard in guards(random) {
        let got = library::settings(lent, offset, guard)?;
        met.count("settings", &lent.score, got.0);
        same_call(&expected, &got).map_err(|difference| told(lent, &difference))?;
    }
    note_ends(met, lent, expected.0).map_err(|difference| told(lent, &difference))?;
    Ok(expected.0)
}

/// A difference, and what was lent.
pub fn told(lent: &SettingsLent, difference: &str) -> String {
    format!("{difference}\nk {}{}", lent.k, shown(lent))
}

/// Together the three numbers are the number of settings.
fn note_ends(met: &mut Met, lent: &SettingsLent, answer: Answer) -> Outcome {
    let Answer::Settings(counts) = answer else { return Ok(()) };
    let all = binomial(lent.switches.len(), lent.k as usize);
    ensure(counts.iter().sum::<u32>() == all, "both engines count other than all settings")?;
    let ends = ENDS.iter().find(|(ends, _)| counts.map(|count| count > 0) == *ends);
    ends.map(|(_, name)| met.note(name)).ok_or("both engines count clashes and aborts".to_string())
}

/// Holds the second engine's number, which the library's is equal to, to what is known of it.
pub fn judge_known(met: &mut Met, random: &mut Random, lent: &SettingsLent, number: u32) -> Outcome {
    let answer = judge(met, random, lent)?;
    ensure(answer.number() == number, &format!("both engines say {answer}, not number {number}"))
        .map_err(|difference| told(lent, &difference))
}
