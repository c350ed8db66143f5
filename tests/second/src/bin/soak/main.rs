//! Plays as many instants as are asked for, alone and within runs, and holds each to the second engine; also the
//! journals of such runs. The last line is 'N instants, D differences'.

#[path = "../instant/library.rs"]
mod instant;
#[path = "../run/library.rs"]
mod run;

use second::answer::Answer;
use second::calls::{instant_call, journal, journal_check_call, run_call};
use second::calls::{InstantLent, JournalCheckLent, Lent, RunLent};
use second::decoded::Decoded;
use second::guarded::GUARDS;
use second::lent::{numbered, State, LAST_NUMBER, SCRATCH_BYTES};
use second::random::Random;
use second::tests::{same_call, shown};
use second::{lawful, scenes};
use std::process::ExitCode;
use std::time::Instant;

const PROGRESS_EVERY: u64 = 100_000;

/// Further differences are only counted.
const MOST_SHOWN: u64 = 5;

#[derive(Default)]
struct Soak {
    instants: u64,
    differences: u64,
}

impl Soak {
    fn compare<T: Lent>(&mut self, lent: &T, expected: &(Answer, T), got: Result<(u64, T), String>) {
        let Err(difference) = got.and_then(|got| same_call(expected, &got)) else { return };
        self.differences += 1;
        if self.differences <= MOST_SHOWN {
            println!("{difference}{}", shown(lent));
        }
    }

    /// A score, and calls on one state of it.
    fn round(&mut self, random: &mut Random) {
        let score = if random.one_in(50) { scenes::special_score(random) } else { scenes::score(random) };
        let decoded = Decoded::new(&score);
        let mut state = any_state(random, &decoded);
        for _ in 0..random.between(1, 12) {
            state = match random.below(3) {
                0 => self.one_run(random, &score, state),
                _ => self.one_instant(random, &score, state),
            };
        }
        self.one_journal(random, &decoded, score);
    }

    /// The state after it.
    fn one_instant(&mut self, random: &mut Random, score: &[u8], state: Vec<u8>) -> Vec<u8> {
        let lent = InstantLent { state, ..lawful::instant(random, score.to_vec()) };
        let expected = instant_call(&lent, random);
        let got = instant::instant(&lent, random.below(8) as usize, random.pick(&GUARDS));
        self.compare(&lent, &expected, got);
        self.instants += u64::from(expected.0.number() == 0);
        expected.1.state
    }

    /// The state after it. At times the journal ends anywhere.
    fn one_run(&mut self, random: &mut Random, score: &[u8], state: Vec<u8>) -> Vec<u8> {
        let mut lent = RunLent { state, ..lawful::run(random, score.to_vec(), 12) };
        if random.one_in(4) {
            let room = random.below(lent.journal.len() as u32 + 1);
            lent.journal.truncate(room as usize);
        }
        let expected = run_call(&lent, random);
        let got = run::run(&lent, random.below(8) as usize, random.pick(&GUARDS));
        self.compare(&lent, &expected, got);
        self.instants += expected.0.written();
        expected.1.state
    }

    fn one_journal(&mut self, random: &mut Random, decoded: &Decoded, score: Vec<u8>) {
        let list = scenes::instants(random, decoded, 6);
        let journal = journal(decoded, &list, random).concat();
        let lent = JournalCheckLent { score, journal, scratch: scenes::dirt(random, SCRATCH_BYTES) };
        let expected = journal_check_call(&lent, random);
        let got = run::journal_check(&lent, random.below(8) as usize, random.pick(&GUARDS));
        self.compare(&lent, &expected, got);
    }
}

/// The start state, or any other; at times with few instants left before the last number.
fn any_state(random: &mut Random, decoded: &Decoded) -> Vec<u8> {
    let starts = random.one_in(2);
    let state = if starts { State::start(decoded).bytes() } else { scenes::lawful_state(random, decoded) };
    if random.one_in(8) {
        return numbered(state, LAST_NUMBER - random.below(40));
    }
    state
}

fn soak(wanted: u64, seed: u64) -> Soak {
    let started = Instant::now();
    let mut soak = Soak::default();
    let mut progress = PROGRESS_EVERY;
    let mut round = 0;
    while soak.instants < wanted {
        soak.round(&mut Random::new(seed, round));
        round += 1;
        if soak.instants >= progress {
            let (instants, differences) = (soak.instants, soak.differences);
            eprintln!("{instants} of {wanted} instants, {differences} differences, {} s", started.elapsed().as_secs());
            progress += PROGRESS_EVERY;
        }
    }
    soak
}

fn main() -> ExitCode {
    let numbers: Result<Vec<u64>, _> = std::env::args().skip(1).map(|argument| argument.parse()).collect();
    let (wanted, seed) = match numbers.as_deref() {
        Ok([wanted]) => (*wanted, 0),
        Ok([wanted, seed]) => (*wanted, *seed),
        _ => {
            eprintln!("usage: give the number of instants, and a seed if it is not to be 0");
            return ExitCode::from(2);
        }
    };
    let soak = soak(wanted, seed);
    println!("{} instants, {} differences", soak.instants, soak.differences);
    if soak.differences == 0 {
        ExitCode::SUCCESS
    } else {
        ExitCode::FAILURE
    }
}
