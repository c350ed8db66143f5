//! The calls of include/score.h. Nothing else of the program speaks to the library.

use crate::instants::first;
use crate::score::Score;
pub use crate::sizes::*;

extern "C" {
    fn score_check(score: *const u8, score_len: usize) -> u64;
    fn score_instant(
        score: *const u8,
        score_len: usize,
        state: *mut u8,
        state_len: usize,
        input: *const u8,
        input_len: usize,
        store: *mut u8,
        store_len: usize,
        output: *mut u8,
        output_len: usize,
        scratch: *mut u8,
        scratch_len: usize,
    ) -> u64;
    fn score_run(
        score: *const u8,
        score_len: usize,
        state: *mut u8,
        state_len: usize,
        inputs: *const u8,
        inputs_len: usize,
        journal: *mut u8,
        journal_len: usize,
        scratch: *mut u8,
        scratch_len: usize,
    ) -> u64;
    fn score_journal_check(
        score: *const u8,
        score_len: usize,
        journal: *const u8,
        journal_len: usize,
        scratch: *mut u8,
        scratch_len: usize,
    ) -> u64;
    fn score_translate(draft: *const u8, draft_len: usize, plain: *mut u8, plain_len: usize) -> u64;

    // src/header.c
    fn header_answer_number(answer: u64) -> u32;
    fn header_answer_value(answer: u64) -> u64;
    fn header_answer_status(answer: u64) -> u32;
    fn header_answer_count(answer: u64) -> u32;
    fn header_state_number(state: *const u8) -> u32;
}

/// A refusal: its number, and the word, procedure, instant or count that it speaks of.
#[derive(Clone, Copy, PartialEq, Eq, Debug)]
pub struct Refusal {
    pub number: u32,
    pub value: u64,
}

/// The value of an accepted answer, or the refusal.
fn taken(answer: u64) -> Result<u64, Refusal> {
    let (number, value) = unsafe { (header_answer_number(answer), header_answer_value(answer)) };
    if number == 0 {
        Ok(value)
    } else {
        Err(Refusal { number, value })
    }
}

/// Whether a console takes a score.
pub fn check(score: &[u8]) -> Result<(), Refusal> {
    taken(unsafe { score_check(score.as_ptr(), score.len()) }).map(|_| ())
}

/// The plain score of a draft.
pub fn translate(draft: &[u8]) -> Result<Vec<u8>, Refusal> {
    let mut plain = vec![0; PLAIN_BYTES];
    let bytes = taken(unsafe { score_translate(draft.as_ptr(), draft.len(), plain.as_mut_ptr(), plain.len()) })?;
    plain.truncate(bytes as usize);
    Ok(plain)
}

/// The numbers of the bits that are set, rising.
fn bits(bytes: &[u8]) -> impl Iterator<Item = usize> + '_ {
    let set = bytes.iter().enumerate().filter(|(_, &byte)| byte != 0);
    set.flat_map(|(at, &byte)| (0..8).filter(move |bit| byte >> bit & 1 == 1).map(move |bit| 8 * at + bit))
}

/// A set of tokens.
#[derive(Clone, Copy, PartialEq, Eq, Default, Debug)]
pub struct Map([u8; MAP_BYTES]);

impl Map {
    pub fn insert(&mut self, token: u8) {
        self.0[token as usize / 8] |= 1 << (token % 8);
    }

    pub fn has(&self, token: u8) -> bool {
        self.0[token as usize / 8] >> (token % 8) & 1 == 1
    }

    /// The tokens, rising.
    pub fn tokens(&self) -> impl Iterator<Item = u8> + '_ {
        bits(&self.0).map(|token| token as u8)
    }
}

impl FromIterator<u8> for Map {
    fn from_iter<I: IntoIterator<Item = u8>>(tokens: I) -> Map {
        let mut map = Map::default();
        tokens.into_iter().for_each(|token| map.insert(token));
        map
    }
}

/// The state of a score: the agents awake, and the instant number.
#[derive(Clone, Copy, PartialEq, Eq, Debug)]
pub struct State([u8; STATE_BYTES]);

impl State {
    /// The start state of an accepted score.
    pub fn start(score: &Score) -> State {
        let mut state = [0; STATE_BYTES];
        state[..4].copy_from_slice(&STATE_RUNNING.to_le_bytes());
        let root = score.procedures[0].root();
        state[4 + root / 8] |= 1 << (root % 8);
        State(state)
    }

    /// The agents awake, rising.
    pub fn awake(&self) -> impl Iterator<Item = usize> + '_ {
        bits(&self.0[4..4 + MAX_AGENTS / 8])
    }

    pub fn aborted(&self) -> bool {
        self.0[..4] != STATE_RUNNING.to_le_bytes()
    }

    /// How many instants were run since the start.
    pub fn number(&self) -> u32 {
        unsafe { header_state_number(self.0.as_ptr()) }
    }
}

#[derive(Clone, Copy, PartialEq, Eq, Debug)]
pub enum Status {
    Quiet,
    Clash,
    Aborted,
}

impl Status {
    pub fn of(number: u32) -> Status {
        match number {
            0 => Status::Quiet,
            1 => Status::Clash,
            _ => Status::Aborted,
        }
    }

    pub fn word(self) -> &'static str {
        match self {
            Status::Quiet => "quiet",
            Status::Clash => "clash",
            Status::Aborted => "aborted",
        }
    }
}

/// What an instant came to.
pub struct Instant {
    pub status: Status,
    pub count: u32,
    pub store: Map,
    pub output: Map,
}

/// Plays one instant: the state becomes the next one.
pub fn instant(score: &[u8], state: &mut State, input: &Map) -> Result<Instant, Refusal> {
    let (mut store, mut output, mut scratch) = (Map::default(), Map::default(), [0; SCRATCH_BYTES]);
    let answer = unsafe {
        score_instant(
            score.as_ptr(),
            score.len(),
            state.0.as_mut_ptr(),
            STATE_BYTES,
            input.0.as_ptr(),
            MAP_BYTES,
            store.0.as_mut_ptr(),
            MAP_BYTES,
            output.0.as_mut_ptr(),
            MAP_BYTES,
            scratch.as_mut_ptr(),
            SCRATCH_BYTES,
        )
    };
    taken(answer)?;
    let (status, count) = unsafe { (header_answer_status(answer), header_answer_count(answer)) };
    Ok(Instant { status: Status::of(status), count, store, output })
}

/// Whether a run from a state takes an input list: it is run where there is no room for its first instant.
pub fn list_check(score: &[u8], mut state: State, inputs: &[u8]) -> Result<(), Refusal> {
    match run_part(score, &mut state, inputs, &mut []) {
        Err(Refusal { number: ROOM, .. }) => Ok(()),
        answer => answer.map(|_| ()),
    }
}

/// Runs a score over an input list: the journal of all its instants. The list is run in parts, so that the room that is
/// lent does not grow with it.
pub fn run(score: &[u8], state: &mut State, inputs: &[u8]) -> Result<Vec<u8>, Refusal> {
    list_check(score, *state, inputs)?;
    let mut journal = Vec::new();
    let mut rest = inputs;
    while !rest.is_empty() {
        let part = first(rest, PART_INSTANTS);
        rest = &rest[part.len()..];
        let mut room = vec![0; MAX_JOURNAL_INSTANT_BYTES * PART_INSTANTS];
        run_part(score, state, part, &mut room)?;
        journal.extend(room.chunks(4).take_while(|word| *word != [0; 4]).flatten());
    }
    Ok(journal)
}

/// How many instants of a list are run at a time, at most.
const PART_INSTANTS: usize = 1024;

/// The instants that one run writes.
fn run_part(score: &[u8], state: &mut State, inputs: &[u8], journal: &mut [u8]) -> Result<u64, Refusal> {
    let mut scratch = [0; SCRATCH_BYTES];
    taken(unsafe {
        score_run(
            score.as_ptr(),
            score.len(),
            state.0.as_mut_ptr(),
            STATE_BYTES,
            inputs.as_ptr(),
            inputs.len(),
            journal.as_mut_ptr(),
            journal.len(),
            scratch.as_mut_ptr(),
            SCRATCH_BYTES,
        )
    })
}

/// The instants that a journal has, if it is what a run writes from the start.
pub fn journal_check(score: &[u8], journal: &[u8]) -> Result<u64, Refusal> {
    let mut scratch = [0; SCRATCH_BYTES];
    taken(unsafe {
        score_journal_check(
            score.as_ptr(),
            score.len(),
            journal.as_ptr(),
            journal.len(),
            scratch.as_mut_ptr(),
            SCRATCH_BYTES,
        )
    })
}

#[cfg(test)]
mod tests {
    use super::*;
    use crate::score::bytes;

    const SAMPLE: [u32; 9] =
        [0x10000403, 0xB0000302, 0x50000002, 0x70000400, 0xA0000000, 0x80000002, 0x60000C01, 0x30000004, 0x20030200];

    #[test]
    fn a_list_of_many_parts_is_run_whole() {
        let score = bytes(SAMPLE);
        let instants = 2 * PART_INSTANTS + 1;
        let list = bytes([INSTANT_WORD, INPUT_WORD | 1]).repeat(instants);
        let mut state = State::start(&Score::read(&score).unwrap());
        let journal = run(&score, &mut state, &list).unwrap();
        assert_eq!(journal, bytes([INSTANT_WORD, INPUT_WORD | 1, OUTPUT_WORD | 2]).repeat(instants));
        assert_eq!(state.number() as usize, instants);
        assert_eq!(journal_check(&score, &journal), Ok(instants as u64));
    }

    #[test]
    fn a_list_is_turned_down_before_it_is_run() {
        let score = bytes(SAMPLE);
        let start = State::start(&Score::read(&score).unwrap());
        let check = |list: &[u8]| list_check(&score, start, list);
        assert_eq!(check(&[]), Ok(()));
        assert_eq!(check(&bytes([INSTANT_WORD, INPUT_WORD | 3])), Ok(()));
        assert_eq!(check(&[0, 0, 0]), Err(Refusal { number: 12, value: 0 }));
        assert_eq!(check(&bytes([INSTANT_WORD, INPUT_WORD | 4])), Err(Refusal { number: 13, value: 1 }));
    }
}
