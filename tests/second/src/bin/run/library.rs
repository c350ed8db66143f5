//! The library's run and journal check, called on buffers between guards.

use second::calls::{JournalCheckLent, RunLent};
use second::guarded::Guarded;

extern "C" {
    fn score_run(
        score: *const u8,
        score_len: usize,
        state: *mut u8,
        state_len: usize,
        inputs: *const u8,
        inputs_len: usize,
        journal: *mut u8,
        journal_len: usize,
        scratch: *mut u8,
        scratch_len: usize,
    ) -> u64;

    fn score_journal_check(
        score: *const u8,
        score_len: usize,
        journal: *const u8,
        journal_len: usize,
        scratch: *mut u8,
        scratch_len: usize,
    ) -> u64;
}

/// The answer, and the buffers after the call. Each buffer stands at an offset of its own.
pub fn run(lent: &RunLent, offset: usize, guard: u32) -> Result<(u64, RunLent), String> {
    let guarded = |bytes: &[u8], place: usize| Guarded::new(bytes, (offset + 3 * place) % 8, guard);
    let mut score = guarded(&lent.score, 0);
    let mut state = guarded(&lent.state, 1);
    let mut inputs = guarded(&lent.inputs, 2);
    let mut journal = guarded(&lent.journal, 3);
    let mut scratch = guarded(&lent.scratch, 4);
    // SAFETY: the bytes of each buffer are lent for the call, with their length, and no two buffers overlap.
    let answer = unsafe {
        score_run(
            score.pointer(),
            score.len(),
            state.pointer(),
            state.len(),
            inputs.pointer(),
            inputs.len(),
            journal.pointer(),
            journal.len(),
            scratch.pointer(),
            scratch.len(),
        )
    };
    let after = RunLent {
        score: score.contents("score")?,
        state: state.contents("state")?,
        inputs: inputs.contents("inputs")?,
        journal: journal.contents("journal")?,
        scratch: scratch.contents("scratch")?,
    };
    Ok((answer, after))
}

/// The answer, and the buffers after the call. Each buffer stands at an offset of its own.
pub fn journal_check(lent: &JournalCheckLent, offset: usize, guard: u32) -> Result<(u64, JournalCheckLent), String> {
    let guarded = |bytes: &[u8], place: usize| Guarded::new(bytes, (offset + 3 * place) % 8, guard);
    let mut score = guarded(&lent.score, 0);
    let mut journal = guarded(&lent.journal, 1);
    let mut scratch = guarded(&lent.scratch, 2);
    // SAFETY: the bytes of each buffer are lent for the call, with their length, and no two buffers overlap.
    let answer = unsafe {
        score_journal_check(
            score.pointer(),
            score.len(),
            journal.pointer(),
            journal.len(),
            scratch.pointer(),
            scratch.len(),
        )
    };
    let after = JournalCheckLent {
        score: score.contents("score")?,
        journal: journal.contents("journal")?,
        scratch: scratch.contents("scratch")?,
    };
    Ok((answer, after))
}
