//! Generated counts of settings that are refused, most of them beside ones that are just not.

use crate::judge::{judge, judge_known, told};
use crate::trials::{any_k, small_switchboard, switchboard, switches};
use second::calls::SettingsLent;
use second::decoded::Decoded;
use second::lent::*;
use second::random::Random;
use second::scenes::{self, STATE_LENGTHS};
use second::settings::{faults, FAULTS, MOST_SWITCHES};
use second::tests::{ensure, Met, Outcome};

/// A call that is 17 by this cause, with nothing else wrong.
fn judge_fault(met: &mut Met, random: &mut Random, lent: &SettingsLent, fault: usize) -> Outcome {
    let found = faults(&Decoded::new(&lent.score), &lent.switches, lent.k);
    ensure(found == [FAULTS[fault]], &format!("{found:?}, not {}", FAULTS[fault]))
        .map_err(|difference| told(lent, &difference))?;
    judge_known(met, random, lent, 17)?;
    met.note(FAULTS[fault]);
    Ok(())
}

/// A place in a list, often its first or last.
fn place(random: &mut Random, len: usize) -> usize {
    match random.below(4) {
        0 => 0,
        1 => len - 1,
        _ => random.below(len as u32) as usize,
    }
}

/// Few settings, whatever the number of switches.
fn k_of_few(random: &mut Random, switches: &[u8]) -> u32 {
    let all = switches.len() as u32;
    random.pick(&[0, 1, 2, all - 1, all]).min(all)
}

/// Sixteen switches are accepted, and with one more or some they are not.
pub fn too_many(met: &mut Met, random: &mut Random, _: u64) -> Outcome {
    let more = random.pick(&[1, 1, 1, 2, 3, 16]);
    let mut lent = switchboard(random, MOST_SWITCHES + more);
    let all = std::mem::take(&mut lent.switches);
    lent.switches = all[..MOST_SWITCHES].to_vec();
    lent.k = k_of_few(random, &lent.switches);
    judge_known(met, random, &lent, 0)?;
    lent.switches = all;
    judge_fault(met, random, &lent, 0)
}

/// Lists whose length, cut to 8 or 16 bits, is that of what they begin with, which alone is accepted.
pub fn far_too_many(met: &mut Met, random: &mut Random, _: u64) -> Outcome {
    let mut lent = small_switchboard(random);
    judge_known(met, random, &lent, 0)?;
    let len = lent.switches.len() + random.pick(&[1 << 8, 1 << 9, 1 << 16]);
    lent.switches.resize(len, random.word() as u8);
    judge_known(met, random, &lent, 17)
}

/// Distinct switches are accepted; with one of them in another's place they are not.
pub fn repeated(met: &mut Met, random: &mut Random, index: u64) -> Outcome {
    let count = if index.is_multiple_of(4) { MOST_SWITCHES } else { random.between(2, 6) as usize };
    let mut lent = switchboard(random, count);
    lent.k = k_of_few(random, &lent.switches);
    judge_known(met, random, &lent, 0)?;
    let one = place(random, count);
    let other = (one + 1 + place(random, count - 1)) % count;
    lent.switches[one] = lent.switches[other];
    judge_fault(met, random, &lent, 1)
}

/// The last token of the score is accepted; the one past it is not, nor are others.
pub fn unknown(met: &mut Met, random: &mut Random, index: u64) -> Outcome {
    let count = if index.is_multiple_of(4) { MOST_SWITCHES } else { random.between(1, 6) as usize };
    let mut lent = switchboard(random, count);
    let tokens = Decoded::new(&lent.score).tokens as u8;
    let at = place(random, count);
    lent.switches.retain(|&token| token != tokens - 1);
    lent.switches.truncate(count - 1);
    lent.switches.insert(at.min(lent.switches.len()), tokens - 1);
    lent.k = k_of_few(random, &lent.switches);
    judge_known(met, random, &lent, 0)?;
    let unknown = random.pick(&[tokens, tokens, tokens, tokens + 1, 255]);
    lent.switches.iter_mut().filter(|token| **token == tokens - 1).for_each(|token| *token = unknown);
    judge_fault(met, random, &lent, 2)
}

/// All switches pressed are accepted; one more to be pressed is not, nor are far more.
pub fn k_too_large(met: &mut Met, random: &mut Random, _: u64) -> Outcome {
    let count = random.below(MOST_SWITCHES as u32 + 1) as usize;
    let mut lent = switchboard(random, count);
    let all = lent.switches.len() as u32;
    lent.k = all;
    judge_known(met, random, &lent, 0)?;
    let k = any_k(random, &lent.switches);
    let far = [all + 2, 17, 32, 33, 0xFF, 0x100 + k, 0x1_0000 + k, 0x8000_0000 | k, 0xFFFF_FF00 | k, u32::MAX];
    lent.k = if random.one_in(2) { all + 1 } else { random.pick(&far) }.max(all + 1);
    judge_fault(met, random, &lent, 3)
}

/// Switches of any length and any bytes, and any k with which they have few settings.
fn dirty_switches(random: &mut Random, lent: &mut SettingsLent) {
    let tokens = Decoded::new(&lent.score).tokens;
    let len = random.pick(&[0, 1, 2, 3, 4, 16, 17, 40]);
    lent.switches = if random.one_in(2) { scenes::dirt(random, len) } else { switches(random, tokens, len) };
    let any = random.word();
    lent.k = random.pick(&[0, 1, len as u32, len as u32 + 1, any]);
}

/// Several causes of 17, or by chance none.
pub fn dirty(met: &mut Met, random: &mut Random, _: u64) -> Outcome {
    let mut lent = small_switchboard(random);
    dirty_switches(random, &mut lent);
    judge(met, random, &lent).map(|_| ())
}

/// A state of any length, the right one among them. With another one the rest is at times wrong besides.
pub fn state_lengths(met: &mut Met, random: &mut Random, index: u64) -> Outcome {
    let mut lent = small_switchboard(random);
    let length = STATE_LENGTHS.in_turn(random, index);
    if length != STATE_BYTES && random.one_in(3) {
        lent.state = scenes::unlawful_state(random, &Decoded::new(&lent.score));
    }
    if length != STATE_BYTES && random.one_in(3) {
        dirty_switches(random, &mut lent);
    }
    lent.state.resize(length, random.word() as u8);
    let answer = judge(met, random, &lent)?;
    met.count_length("settings", &STATE_LENGTHS, length, answer)
}

/// A state with the last agent is accepted, one with an agent past it is not, nor are others; the switches are at times
/// wrong besides.
pub fn unlawful_states(met: &mut Met, random: &mut Random, _: u64) -> Outcome {
    let mut lent = small_switchboard(random);
    let decoded = Decoded::new(&lent.score);
    let last = decoded.agents.len() - 1;
    let number = scenes::any_number(random);
    lent.state = numbered(state_bytes(RUNNING, [last]), number);
    judge_known(met, random, &lent, 0)?;
    let past = numbered(state_bytes(RUNNING, [last, last + 1]), number);
    lent.state = if random.one_in(3) { past } else { scenes::unlawful_state(random, &decoded) };
    if random.one_in(2) {
        dirty_switches(random, &mut lent);
    }
    judge_known(met, random, &lent, 9)
}

/// Damaged scores, at times with all else wrong too.
pub fn damaged_scores(met: &mut Met, random: &mut Random, _: u64) -> Outcome {
    let mut lent = small_switchboard(random);
    if random.one_in(4) {
        lent.state = scenes::unlawful_state(random, &Decoded::new(&lent.score));
    }
    if random.one_in(4) {
        dirty_switches(random, &mut lent);
    }
    scenes::damage_score(random, &mut lent.score);
    if random.one_in(4) {
        scenes::resize(random, &mut lent.state);
    }
    judge(met, random, &lent).map(|_| ())
}

/// Scores of the score check's generators, with circles and damage of every kind.
pub fn checked_scores(met: &mut Met, random: &mut Random, index: u64) -> Outcome {
    let lent = SettingsLent {
        score: scenes::checked_score(random, index),
        state: numbered(state_bytes(RUNNING, [0]), scenes::any_number(random)),
        switches: vec![0],
        k: random.below(2),
    };
    let answer = judge(met, random, &lent)?;
    ensure(answer.number() < 8, "both engines find more wrong than the score")
        .map_err(|difference| told(&lent, &difference))
}

/// Any mixture of what may be wrong.
pub fn several_faults(met: &mut Met, random: &mut Random, _: u64) -> Outcome {
    let mut lent = small_switchboard(random);
    if random.one_in(2) {
        lent.state = scenes::unlawful_state(random, &Decoded::new(&lent.score));
    }
    if random.one_in(2) {
        dirty_switches(random, &mut lent);
    }
    if random.one_in(3) {
        scenes::resize(random, &mut lent.state);
    }
    if random.one_in(4) {
        scenes::damage_score(random, &mut lent.score);
    }
    judge(met, random, &lent).map(|_| ())
}
