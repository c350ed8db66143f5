//! The library's translation, called on buffers between guards.

use second::calls::TranslateLent;
use second::guarded::Guarded;

extern "C" {
    fn score_translate(draft: *const u8, draft_len: usize, plain: *mut u8, plain_len: usize) -> u64;
}

/// The answer, and the buffers after the call. Each buffer stands at an offset of its own.
pub fn translate(lent: &TranslateLent, offset: usize, guard: u32) -> Result<(u64, TranslateLent), String> {
    let mut draft = Guarded::new(&lent.draft, offset, guard);
    let mut plain = Guarded::new(&lent.plain, (offset + 3) % 8, guard);
    // SAFETY: the bytes of each buffer are lent for the call, with their length, and the two do not overlap.
    let answer = unsafe { score_translate(draft.pointer(), draft.len(), plain.pointer(), plain.len()) };
    let after = TranslateLent { draft: draft.contents("draft")?, plain: plain.contents("plain score")? };
    Ok((answer, after))
}
