//! Runs tests and counts them. A test is a case, or a category of generated trials.

use crate::answer::{same, Answer};
use crate::calls::Lent;
use crate::oracle;
use crate::random::Random;
use crate::scenes::Lengths;
use std::collections::BTreeMap;
use std::process::ExitCode;

/// Nothing, or the difference that was found.
pub type Outcome = Result<(), String>;

pub fn ensure(holds: bool, difference: &str) -> Outcome {
    if holds {
        Ok(())
    } else {
        Err(difference.to_string())
    }
}

pub type Case = (&'static str, Box<dyn Fn(&mut Met) -> Outcome>);

pub fn case(name: &'static str, run: impl Fn(&mut Met) -> Outcome + 'static) -> Case {
    (name, Box::new(run))
}

/// Makes and judges a trial.
pub type Trial = fn(&mut Met, &mut Random, u64) -> Outcome;

/// A category's name, how many trials it has, and what makes them.
pub type Category<T> = (&'static str, u64, T);

/// How often each number and status must be met.
const LEAST_MET: u64 = 1_000;

/// How often the library gave each answer.
#[derive(Default)]
pub struct Met {
    /// By call and number.
    numbers: BTreeMap<(&'static str, u32), u64>,
    /// The same, of the answers that are about a fact.
    of_facts: BTreeMap<(&'static str, u32), u64>,
    statuses: BTreeMap<u32, u64>,
    statuses_with_facts: BTreeMap<u32, u64>,
    facts_added: u64,
    /// By call, buffer and length, of the calls with nothing else wrong before number 9.
    lengths: BTreeMap<(&'static str, &'static str, usize), u64>,
    /// By name, what else a program must meet.
    noted: BTreeMap<String, u64>,
}

/// Whether a score with a fact is accepted, or the word that 4 or 5 names is a fact. Its kind is then right for its place,
/// so that 4 is due to a bit from 8 to 26.
fn is_about_fact(score: &[u8], answer: Answer) -> bool {
    let words = oracle::words(score);
    let mut facts = oracle::rule_places(&words).filter(|&at| oracle::is_fact(words[at]));
    match answer {
        Answer::Refused { number: 4 | 5, value } => facts.any(|at| at as u64 == value),
        Answer::Refused { .. } => false,
        _ => facts.next().is_some(),
    }
}

impl Met {
    pub fn count(&mut self, call: &'static str, score: &[u8], packed: u64) {
        let answer = Answer::unpacked(packed);
        let is_about_fact = is_about_fact(score, answer);
        *self.numbers.entry((call, answer.number())).or_default() += 1;
        if is_about_fact {
            *self.of_facts.entry((call, answer.number())).or_default() += 1;
        }
        if let Answer::Instant { status, .. } = answer {
            *self.statuses.entry(status).or_default() += 1;
            if is_about_fact {
                *self.statuses_with_facts.entry(status).or_default() += 1;
            }
        }
    }

    pub fn note(&mut self, what: &str) {
        *self.noted.entry(what.to_string()).or_default() += 1;
    }

    /// Holds the answer of a call with nothing wrong before number 9, but for the length of a buffer, to what is known
    /// of it: another length meets 8, and with the right one the call is accepted.
    pub fn count_length(&mut self, call: &'static str, of: &Lengths, length: usize, answer: Answer) -> Outcome {
        *self.lengths.entry((call, of.name, length)).or_default() += 1;
        let number = if length == of.right { 0 } else { 8 };
        ensure(answer.number() == number, &format!("both engines say {answer} of a {} of {length} bytes", of.name))
    }

    /// A score was compared with itself and a fact more, which it did not have.
    pub fn count_fact_added(&mut self) {
        self.facts_added += 1;
    }
}

pub struct Tests {
    passed: u64,
    failed: u64,
    /// Multiplies the number of generated trials.
    times: u64,
    met: Met,
}

impl Tests {
    fn record(&mut self, name: &str, outcome: Outcome) {
        match outcome {
            Ok(()) => {
                println!("passed: {name}");
                self.passed += 1;
            }
            Err(difference) => {
                println!("failed: {name}: {difference}");
                self.failed += 1;
            }
        }
    }

    pub fn cases(&mut self, cases: Vec<Case>) {
        for (name, run) in cases {
            let outcome = run(&mut self.met);
            self.record(name, outcome);
        }
    }

    /// A category stops at its first difference. A trial of the same index has the same random numbers in every run.
    pub fn categories<T>(
        &mut self,
        categories: &[Category<T>],
        judge: impl Fn(&T, &mut Met, &mut Random, u64) -> Outcome,
    ) {
        for (number, (name, trials, make)) in categories.iter().enumerate() {
            let outcome = (0..trials * self.times).try_for_each(|index| {
                judge(make, &mut self.met, &mut Random::new(number as u64, index), index)
                    .map_err(|difference| format!("trial {index}: {difference}"))
            });
            self.record(name, outcome);
        }
    }

    /// Each of the numbers must have been met often enough.
    pub fn require_numbers(&mut self, call: &'static str, numbers: impl IntoIterator<Item = u32>) {
        for number in numbers {
            let met = self.met.numbers.get(&(call, number)).copied();
            self.require(&format!("{call}: number {number}"), met);
        }
    }

    /// From both sides of a fact's limits: accepted, and damaged by a bit or by its token.
    pub fn require_facts(&mut self, call: &'static str) {
        for number in [0, 4, 5] {
            let met = self.met.of_facts.get(&(call, number)).copied();
            self.require(&format!("{call}: number {number} of facts"), met);
        }
    }

    /// From both sides of a buffer's length.
    pub fn require_lengths(&mut self, call: &'static str, of: &Lengths) {
        for length in [of.right].into_iter().chain(of.wrong) {
            let met = self.met.lengths.get(&(call, of.name, length)).copied();
            self.require(&format!("{call}: a {} of {length} bytes", of.name), met);
        }
    }

    pub fn require_facts_added(&mut self) {
        let met = self.met.facts_added;
        self.require("a fact added", Some(met));
    }

    pub fn require_noted(&mut self, what: &str) {
        let met = self.met.noted.get(what).copied();
        self.require(what, met);
    }

    pub fn require_statuses(&mut self) {
        for status in 0..=2 {
            let met = self.met.statuses.get(&status).copied();
            self.require(&format!("status {status}"), met);
            let met = self.met.statuses_with_facts.get(&status).copied();
            self.require(&format!("status {status} of a score with facts"), met);
        }
    }

    fn require(&mut self, name: &str, met: Option<u64>) {
        let met = met.unwrap_or(0);
        let outcome = if met < LEAST_MET { Err(format!("met only {met} times")) } else { Ok(()) };
        self.record(&format!("{name}: met {met} times"), outcome);
    }
}

/// The bytes of a buffer, or the first of them where it is far too long.
pub fn hex(bytes: &[u8]) -> String {
    bytes.iter().take(5388).map(|byte| format!("{byte:02x}")).collect()
}

/// Holds the library's answer and every byte after the call to what is expected of them.
pub fn same_call(expected: &(Answer, impl Lent), got: &(u64, impl Lent)) -> Outcome {
    same(got.0, expected.0)?;
    for ((name, wanted), (_, found)) in expected.1.buffers().into_iter().zip(got.1.buffers()) {
        if wanted != found {
            return Err(format!("the {name} is\n{}\nnot\n{}", hex(found), hex(wanted)));
        }
    }
    Ok(())
}

/// What was lent, for a reader of a difference.
pub fn shown(lent: &impl Lent) -> String {
    lent.buffers().iter().map(|(name, bytes)| format!("\n{name} {}", hex(bytes))).collect()
}

/// A test program's main function. An argument multiplies the number of generated trials; the last line is
/// 'N passed, M failed'.
pub fn run(test: fn(&mut Tests)) -> ExitCode {
    let times = match std::env::args().nth(1).map(|times| times.parse()) {
        None => 1,
        Some(Ok(times)) if times > 0 => times,
        _ => {
            eprintln!("usage: give nothing, or by how much to multiply the number of trials");
            return ExitCode::from(2);
        }
    };
    let mut tests = Tests { passed: 0, failed: 0, times, met: Met::default() };
    test(&mut tests);
    println!("{} passed, {} failed", tests.passed, tests.failed);
    if tests.failed == 0 {
        ExitCode::SUCCESS
    } else {
        ExitCode::FAILURE
    }
}
