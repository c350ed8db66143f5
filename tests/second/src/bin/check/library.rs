//! The library under test, called on bytes between guards.

use second::guarded::{Guarded, GUARDS};

extern "C" {
    fn score_check(score: *const u8, score_len: usize) -> u64;
}

/// Checks a score that stands between guards of each of two words, so many bytes off an aligned address. What the
/// library reads or writes outside the score, or writes into it, shows in one of the two calls.
pub fn check(score: &[u8], offset: usize) -> Result<u64, String> {
    let [first, second] = GUARDS.map(|guard| check_between(score, offset, guard));
    let first = first?;
    if first == second? {
        Ok(first)
    } else {
        Err("the answer hangs on bytes outside the score".to_string())
    }
}

fn check_between(score: &[u8], offset: usize, guard: u32) -> Result<u64, String> {
    let mut lent = Guarded::new(score, offset, guard);
    // SAFETY: the bytes are lent for the call, with their length.
    let answer = unsafe { score_check(lent.pointer(), lent.len()) };
    if lent.contents("score")? != score {
        return Err("the score was written to".to_string());
    }
    Ok(answer)
}
