//! What the library's counts have in common with each other and with its own instants.

use crate::judge::{judge_known, told};
use crate::trials::small_switchboard;
use crate::{instant, library};
use second::answer::{same, Answer};
use second::calls::{InstantLent, SettingsLent};
use second::decoded::Token;
use second::guarded::GUARDS;
use second::lent::*;
use second::random::Random;
use second::scenes;
use second::settings::settings;
use second::tests::{ensure, Met, Outcome};

/// The library's answer, at any offset.
fn answer(met: &mut Met, random: &mut Random, lent: &SettingsLent) -> Result<u64, String> {
    let (answer, _) = library::settings(lent, random.below(8) as usize, random.pick(&GUARDS))?;
    met.count("settings", &lent.score, answer);
    Ok(answer)
}

/// The status of the library's instant from the same state, at number 0, with these tokens as input.
fn status(random: &mut Random, lent: &SettingsLent, tokens: &[Token]) -> Result<u32, String> {
    let lent = InstantLent {
        score: lent.score.clone(),
        state: numbered(lent.state.clone(), 0),
        input: map_bytes(tokens),
        store: scenes::dirt(random, MAP_BYTES),
        output: scenes::dirt(random, MAP_BYTES),
        scratch: scenes::dirt(random, SCRATCH_BYTES),
    };
    match Answer::unpacked(instant::instant(&lent, 0, GUARDS[0])?.0) {
        Answer::Instant { status, .. } => Ok(status),
        answer => Err(format!("the instant of a setting is answered {answer}")),
    }
}

/// The order in which the switches are listed does not matter.
pub fn order(met: &mut Met, random: &mut Random, _: u64) -> Outcome {
    let mut lent = small_switchboard(random);
    let listed = answer(met, random, &lent)?;
    for _ in 0..3 {
        random.shuffle(&mut lent.switches);
        let shuffled = answer(met, random, &lent)?;
        ensure(shuffled == listed, "another order of the switches has another answer")
            .map_err(|difference| told(&lent, &difference))?;
    }
    judge_known(met, random, &lent, 0)
}

/// The counts are those of the library's own instants, one for each setting.
pub fn own_instants(met: &mut Met, random: &mut Random, _: u64) -> Outcome {
    let lent = small_switchboard(random);
    let switches: Vec<Token> = lent.switches.iter().map(|&token| token.into()).collect();
    let mut counts = [0; 3];
    for setting in settings(&switches, lent.k as usize) {
        counts[status(random, &lent, &setting)? as usize] += 1;
    }
    same(answer(met, random, &lent)?, Answer::Settings(counts)).map_err(|difference| told(&lent, &difference))
}

/// With none pressed, of no switches or of some, there is one setting: the library's instant without input.
pub fn none_pressed(met: &mut Met, random: &mut Random, _: u64) -> Outcome {
    let mut lent = small_switchboard(random);
    lent.k = 0;
    let mut counts = [0; 3];
    counts[status(random, &lent, &[])? as usize] = 1;
    let all = std::mem::take(&mut lent.switches);
    for switches in [vec![], all] {
        lent.switches = switches;
        same(answer(met, random, &lent)?, Answer::Settings(counts)).map_err(|difference| told(&lent, &difference))?;
    }
    Ok(())
}

/// What must be met among the counts.
pub const AT_LAST: [&str; 2] =
    ["settings at the last number of a running state", "settings at the last number of an aborted state"];

/// The number of the state does not matter, and is not changed.
pub fn numbers(met: &mut Met, random: &mut Random, _: u64) -> Outcome {
    let mut lent = small_switchboard(random);
    if random.one_in(2) {
        lent.state = state_bytes(ABORTED, []);
    }
    lent.state = numbered(lent.state, 0);
    let at_0 = answer(met, random, &lent)?;
    for number in [1, scenes::early_number(random), LAST_NUMBER - 1, LAST_NUMBER] {
        lent.state = numbered(lent.state, number);
        let (answer, after) = library::settings(&lent, random.below(8) as usize, random.pick(&GUARDS))?;
        met.count("settings", &lent.score, answer);
        ensure(answer == at_0, "another number has another answer")
            .and_then(|()| ensure(after.state == lent.state, "the state is changed"))
            .map_err(|difference| told(&lent, &difference))?;
    }
    met.note(AT_LAST[usize::from(is_aborted(&lent.state))]);
    judge_known(met, random, &lent, 0)
}
