//! The library's count of settings, called on buffers between guards.

use second::calls::SettingsLent;
use second::guarded::Guarded;

extern "C" {
    fn score_settings(
        score: *const u8,
        score_len: usize,
        state: *const u8,
        state_len: usize,
        switches: *const u8,
        switches_len: usize,
        k: u32,
    ) -> u64;
}

/// The answer, and the buffers after the call. Each buffer stands at an offset of its own.
pub fn settings(lent: &SettingsLent, offset: usize, guard: u32) -> Result<(u64, SettingsLent), String> {
    let guarded = |bytes: &[u8], place: usize| Guarded::new(bytes, (offset + 3 * place) % 8, guard);
    let mut score = guarded(&lent.score, 0);
    let mut state = guarded(&lent.state, 1);
    let mut switches = guarded(&lent.switches, 2);
    // SAFETY: the bytes of each buffer are lent for the call, with their length.
    let answer = unsafe {
        score_settings(
            score.pointer(),
            score.len(),
            state.pointer(),
            state.len(),
            switches.pointer(),
            switches.len(),
            lent.k,
        )
    };
    let after = SettingsLent {
        score: score.contents("score")?,
        state: state.contents("state")?,
        switches: switches.contents("switches")?,
        k: lent.k,
    };
    Ok((answer, after))
}

/// The answer where the switches are a part of the score. Buffers that are only read may overlap.
pub fn settings_on_score(lent: &SettingsLent, switches_at: usize) -> u64 {
    let switches = &lent.score[switches_at..][..lent.switches.len()];
    // SAFETY: nothing is written.
    unsafe {
        score_settings(
            lent.score.as_ptr(),
            lent.score.len(),
            lent.state.as_ptr(),
            lent.state.len(),
            switches.as_ptr(),
            switches.len(),
            lent.k,
        )
    }
}
