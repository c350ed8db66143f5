//! Buffers that are only read may overlap.

use crate::library::score_instant;
use second::calls::InstantLent;

/// An instant whose input map is a part of the score.
pub fn instant_on_score(lent: &InstantLent, input_at: usize) -> (u64, InstantLent) {
    let mut after = lent.clone();
    let input = &lent.score[input_at..][..lent.input.len()];
    // SAFETY: the buffers that are written overlap nothing.
    let answer = unsafe {
        score_instant(
            lent.score.as_ptr(),
            lent.score.len(),
            after.state.as_mut_ptr(),
            after.state.len(),
            input.as_ptr(),
            input.len(),
            after.store.as_mut_ptr(),
            after.store.len(),
            after.output.as_mut_ptr(),
            after.output.len(),
            after.scratch.as_mut_ptr(),
            after.scratch.len(),
        )
    };
    (answer, after)
}
