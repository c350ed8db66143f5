//! The calls over lent buffers: their answers, and what each buffer holds after them.

#[cfg(test)]
mod tests;

use crate::answer::{refused, Answer, ACCEPTED};
use crate::decoded::{Decoded, Token};
use crate::engine::{self, End};
use crate::lent::*;
use crate::random::Random;
use crate::scratch::Scratch;
use crate::{draft, oracle, settings, translate};

#[derive(Clone)]
pub struct InstantLent {
    pub score: Vec<u8>,
    pub state: Vec<u8>,
    pub input: Vec<u8>,
    pub store: Vec<u8>,
    pub output: Vec<u8>,
    pub scratch: Vec<u8>,
}

#[derive(Clone)]
pub struct RunLent {
    pub score: Vec<u8>,
    pub state: Vec<u8>,
    pub inputs: Vec<u8>,
    pub journal: Vec<u8>,
    pub scratch: Vec<u8>,
}

#[derive(Clone)]
pub struct JournalCheckLent {
    pub score: Vec<u8>,
    pub journal: Vec<u8>,
    pub scratch: Vec<u8>,
}

#[derive(Clone)]
pub struct TranslateLent {
    pub draft: Vec<u8>,
    pub plain: Vec<u8>,
}

/// What is lent to a count of settings, and how many switches are pressed.
#[derive(Clone)]
pub struct SettingsLent {
    pub score: Vec<u8>,
    pub state: Vec<u8>,
    pub switches: Vec<u8>,
    pub k: u32,
}

/// The buffers of a call, with their names in the header.
pub trait Lent: Clone {
    fn buffers(&self) -> Vec<(&'static str, &[u8])>;
}

impl Lent for InstantLent {
    fn buffers(&self) -> Vec<(&'static str, &[u8])> {
        vec![
            ("score", &self.score),
            ("state", &self.state),
            ("input", &self.input),
            ("store", &self.store),
            ("output", &self.output),
            ("scratch", &self.scratch),
        ]
    }
}

impl Lent for RunLent {
    fn buffers(&self) -> Vec<(&'static str, &[u8])> {
        vec![
            ("score", &self.score),
            ("state", &self.state),
            ("inputs", &self.inputs),
            ("journal", &self.journal),
            ("scratch", &self.scratch),
        ]
    }
}

impl Lent for JournalCheckLent {
    fn buffers(&self) -> Vec<(&'static str, &[u8])> {
        vec![("score", &self.score), ("journal", &self.journal), ("scratch", &self.scratch)]
    }
}

impl Lent for SettingsLent {
    fn buffers(&self) -> Vec<(&'static str, &[u8])> {
        vec![("score", &self.score), ("state", &self.state), ("switches", &self.switches)]
    }
}

impl Lent for TranslateLent {
    fn buffers(&self) -> Vec<(&'static str, &[u8])> {
        vec![("draft", &self.draft), ("plain", &self.plain)]
    }
}

/// What an instant brings about. Store and output are rising tokens; the scratch is as it was before it was cleared.
struct Instant {
    status: u32,
    count: u32,
    store: Vec<Token>,
    output: Vec<Token>,
    next: State,
    scratch: Scratch,
}

/// The next instant, or nothing where it is wanted at the last number.
fn instant(score: &Decoded, state: &State, inputs: &[Token], random: &mut Random) -> Option<Instant> {
    let number = state.number.checked_add(1)?;
    Some(numbered_instant(score, &state.awake, number, inputs, random))
}

/// An instant after which so many have been run.
fn numbered_instant(score: &Decoded, awake: &Awake, number: u32, inputs: &[Token], random: &mut Random) -> Instant {
    let Awake::Running(agents) = awake else { return aborted(number, Scratch::cleared()) };
    let agents: Vec<_> = agents.iter().copied().collect();
    let order = engine::finished(score, &agents, inputs, random);
    let (end, scratch) = (order.end(), order.scratch);
    let status = end.status();
    let End::Quiet { store, awake, .. } = end else { return aborted(number, scratch) };
    Instant {
        status,
        count: scratch.count(),
        output: engine::output(&store, &score.ports),
        store: (0..score.tokens).filter(|&token| store[token]).collect(),
        next: State { awake: Awake::Running(awake.into_iter().collect()), number },
        scratch,
    }
}

fn aborted(number: u32, scratch: Scratch) -> Instant {
    let next = State { awake: Awake::Aborted, number };
    Instant { status: 2, count: 0, store: vec![], output: vec![], next, scratch }
}

/// Whether a next state would meet number 9.
fn meets_9(score: &Decoded, next: &State) -> bool {
    State::read(score, &next.bytes()).is_none()
}

pub fn instant_call(lent: &InstantLent, random: &mut Random) -> (Answer, InstantLent) {
    let mut after = lent.clone();
    let answer = answer_instant(&mut after, random).unwrap_or_else(|refusal| refusal);
    (answer, after)
}

fn answer_instant(lent: &mut InstantLent, random: &mut Random) -> Result<Answer, Answer> {
    let score = checked(&lent.score)?;
    check_lengths(&[(&lent.state, STATE_BYTES), (&lent.scratch, SCRATCH_BYTES)])?;
    check_lengths(&[(&lent.input, MAP_BYTES), (&lent.store, MAP_BYTES), (&lent.output, MAP_BYTES)])?;
    let state = State::read(&score, &lent.state).ok_or(refused(9, 0))?;
    let inputs = map_tokens(&lent.input);
    if inputs.iter().any(|&token| token >= score.tokens) {
        return Err(refused(10, 0));
    }
    let instant = instant(&score, &state, &inputs, random).ok_or(refused(18, 0))?;
    lent.scratch.fill(0);
    if meets_9(&score, &instant.next) {
        return Err(refused(11, 0));
    }
    lent.state = instant.next.bytes();
    lent.store = map_bytes(&instant.store);
    lent.output = map_bytes(&instant.output);
    Ok(Answer::Instant { status: instant.status, count: instant.count })
}

/// Numbers 1 to 7.
fn checked(score: &[u8]) -> Result<Decoded, Answer> {
    match oracle::check(score) {
        ACCEPTED => Ok(Decoded::new(score)),
        refusal => Err(refusal),
    }
}

/// Number 8.
fn check_lengths(buffers: &[(&Vec<u8>, usize)]) -> Result<(), Answer> {
    match buffers.iter().all(|(buffer, length)| buffer.len() == *length) {
        true => Ok(()),
        false => Err(refused(8, 0)),
    }
}

/// Numbers 12 and 13.
fn check_form(kept: Kept, bytes: &[u8], score: &Decoded) -> Result<(), Answer> {
    if !bytes.len().is_multiple_of(4) {
        return Err(refused(12, 0));
    }
    match lowest_fault(kept, bytes, score.tokens) {
        Some(word) => Err(refused(13, word as u64)),
        None => Ok(()),
    }
}

pub fn run_call(lent: &RunLent, random: &mut Random) -> (Answer, RunLent) {
    let mut after = lent.clone();
    let answer = answer_run(&mut after, random).unwrap_or_else(|refusal| refusal);
    (answer, after)
}

fn answer_run(lent: &mut RunLent, random: &mut Random) -> Result<Answer, Answer> {
    let score = checked(&lent.score)?;
    check_lengths(&[(&lent.state, STATE_BYTES), (&lent.scratch, SCRATCH_BYTES)])?;
    let mut state = State::read(&score, &lent.state).ok_or(refused(9, 0))?;
    check_form(Kept::List, &lent.inputs, &score)?;
    lent.scratch.fill(0);
    let (mut written, mut bytes_written) = (0, 0);
    for inputs in inputs(&lent.inputs) {
        let instant = instant(&score, &state, &inputs, random).ok_or(refused(18, written))?;
        if meets_9(&score, &instant.next) {
            return Err(refused(11, 0));
        }
        let bytes = instant_bytes(instant.status, &inputs, &instant.output);
        let left = &mut lent.journal[bytes_written..];
        if bytes.len() > left.len() {
            return Err(refused(15, written));
        }
        left[..bytes.len()].copy_from_slice(&bytes);
        bytes_written += bytes.len();
        written += 1;
        lent.state = instant.next.bytes();
        state = instant.next;
    }
    Ok(Answer::Accepted(written))
}

/// The journal of a run from the start state, instant by instant.
pub fn journal(score: &Decoded, list: &[Vec<Token>], random: &mut Random) -> Vec<Vec<u8>> {
    let mut state = State::start(score);
    let mut instants = Vec::new();
    for inputs in list {
        let instant = instant(score, &state, inputs, random).expect("the list is short");
        instants.push(instant_bytes(instant.status, inputs, &instant.output));
        state = instant.next;
    }
    instants
}

/// The bits that each instant of a list from a state sets in the scratch, before they are cleared.
pub fn bits_of_instants(score: &Decoded, state: &[u8], list: &[Vec<Token>], random: &mut Random) -> Vec<Vec<u8>> {
    let mut state = State::read(score, state).expect("the state is lawful");
    let mut bits = Vec::new();
    for inputs in list {
        let instant = instant(score, &state, inputs, random).expect("the last number is far");
        bits.push(instant.scratch.bytes());
        state = instant.next;
    }
    bits
}

pub fn journal_check_call(lent: &JournalCheckLent, random: &mut Random) -> (Answer, JournalCheckLent) {
    let mut after = lent.clone();
    let answer = answer_journal_check(&mut after, random).unwrap_or_else(|refusal| refusal);
    (answer, after)
}

fn answer_journal_check(lent: &mut JournalCheckLent, random: &mut Random) -> Result<Answer, Answer> {
    let score = checked(&lent.score)?;
    check_lengths(&[(&lent.scratch, SCRATCH_BYTES)])?;
    check_form(Kept::Journal, &lent.journal, &score)?;
    lent.scratch.fill(0);
    answer_journal(&score, State::start(&score), &lent.journal, random)
}

/// Compares a journal in its form with what a run from a state writes, which is nothing at the last number.
fn answer_journal(score: &Decoded, mut state: State, journal: &[u8], random: &mut Random) -> Result<Answer, Answer> {
    let mut read = 0;
    for (words, inputs) in instants(journal).into_iter().zip(inputs(journal)) {
        let instant = instant(score, &state, &inputs, random).ok_or(refused(14, read))?;
        if meets_9(score, &instant.next) {
            return Err(refused(11, 0));
        }
        let bytes = instant_bytes(instant.status, &inputs, &instant.output);
        if bytes != journal[4 * words.start..4 * words.end] {
            return Err(refused(14, read));
        }
        read += 1;
        state = instant.next;
    }
    Ok(Answer::Accepted(read))
}

/// Nothing is written.
pub fn settings_call(lent: &SettingsLent, random: &mut Random) -> (Answer, SettingsLent) {
    (answer_settings(lent, random).unwrap_or_else(|refusal| refusal), lent.clone())
}

fn answer_settings(lent: &SettingsLent, random: &mut Random) -> Result<Answer, Answer> {
    let score = checked(&lent.score)?;
    check_lengths(&[(&lent.state, STATE_BYTES)])?;
    let state = State::read(&score, &lent.state).ok_or(refused(9, 0))?;
    if !settings::faults(&score, &lent.switches, lent.k).is_empty() {
        return Err(refused(17, 0));
    }
    let switches: Vec<Token> = lent.switches.iter().map(|&token| token.into()).collect();
    Ok(Answer::Settings(settings::counts(&score, &state.awake, &switches, lent.k as usize, random)))
}

pub fn translate_call(lent: &TranslateLent) -> (Answer, TranslateLent) {
    let mut after = lent.clone();
    let answer = answer_translate(&mut after).unwrap_or_else(|refusal| refusal);
    (answer, after)
}

fn answer_translate(lent: &mut TranslateLent) -> Result<Answer, Answer> {
    let checked = draft::check(&lent.draft);
    if checked != ACCEPTED {
        return Err(checked);
    }
    check_lengths(&[(&lent.plain, PLAIN_BYTES)])?;
    let plain = translate::translate(&lent.draft).ok_or(refused(16, 0))?;
    lent.plain[..plain.len()].copy_from_slice(&plain);
    Ok(Answer::Accepted(plain.len() as u64))
}
