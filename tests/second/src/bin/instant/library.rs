//! The library's instant, called on buffers between guards.

use second::calls::InstantLent;
use second::guarded::Guarded;

extern "C" {
    pub fn score_instant(
        score: *const u8,
        score_len: usize,
        state: *mut u8,
        state_len: usize,
        input: *const u8,
        input_len: usize,
        store: *mut u8,
        store_len: usize,
        output: *mut u8,
        output_len: usize,
        scratch: *mut u8,
        scratch_len: usize,
    ) -> u64;
}

/// The answer, and the buffers after the call. Each buffer stands at an offset of its own.
pub fn instant(lent: &InstantLent, offset: usize, guard: u32) -> Result<(u64, InstantLent), String> {
    let guarded = |bytes: &[u8], place: usize| Guarded::new(bytes, (offset + 3 * place) % 8, guard);
    let mut score = guarded(&lent.score, 0);
    let mut state = guarded(&lent.state, 1);
    let mut input = guarded(&lent.input, 2);
    let mut store = guarded(&lent.store, 3);
    let mut output = guarded(&lent.output, 4);
    let mut scratch = guarded(&lent.scratch, 5);
    // SAFETY: the bytes of each buffer are lent for the call, with their length, and no two buffers overlap.
    let answer = unsafe {
        score_instant(
            score.pointer(),
            score.len(),
            state.pointer(),
            state.len(),
            input.pointer(),
            input.len(),
            store.pointer(),
            store.len(),
            output.pointer(),
            output.len(),
            scratch.pointer(),
            scratch.len(),
        )
    };
    let after = InstantLent {
        score: score.contents("score")?,
        state: state.contents("state")?,
        input: input.contents("input")?,
        store: store.contents("store")?,
        output: output.contents("output")?,
        scratch: scratch.contents("scratch")?,
    };
    Ok((answer, after))
}
