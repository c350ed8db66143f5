//! Bytes lent to the library between guards.

use crate::random::Random;
use std::hint::black_box;

const GUARD: usize = 64;

/// The two words that guards are made of: what is read outside a buffer shows in one of two calls.
pub const GUARDS: [u32; 2] = [0, u32::MAX];

/// Words that could stand next: a rule by which token 1 is a clash, and a fact of it; an instant, an input, an output.
const NEXT_WORDS: [u32; 5] = [0x2001_0100, 0x2800_0001, 0xC000_0000, 0xD000_0001, 0xE000_0001];

/// The two, and one that could stand next.
pub fn guards(random: &mut Random) -> [u32; 3] {
    [GUARDS[0], GUARDS[1], random.pick(&NEXT_WORDS)]
}

pub struct Guarded {
    buffer: Vec<u8>,
    start: usize,
    len: usize,
    guard: u32,
}

/// The guard's byte at this place; guards begin anew where the contents end.
fn guard_byte(guard: u32, at: usize, end: usize) -> u8 {
    guard.to_le_bytes()[(at + 4 - end % 4) % 4]
}

impl Guarded {
    /// The contents stand so many bytes off an aligned address.
    pub fn new(contents: &[u8], offset: usize, guard: u32) -> Guarded {
        let (start, len) = (GUARD + offset, contents.len());
        let end = start + len;
        let mut buffer: Vec<u8> = (0..end + GUARD).map(|at| guard_byte(guard, at, end)).collect();
        buffer[start..end].copy_from_slice(contents);
        Guarded { buffer, start, len, guard }
    }

    /// The address of the contents, or null for no bytes between guards of 0. It is mutable for every buffer, so that
    /// a write would be seen.
    pub fn pointer(&mut self) -> *mut u8 {
        if self.len == 0 && self.guard == 0 {
            return std::ptr::null_mut();
        }
        black_box(self.buffer.as_mut_ptr().wrapping_add(self.start))
    }

    pub fn len(&self) -> usize {
        self.len
    }

    pub fn is_empty(&self) -> bool {
        self.len == 0
    }

    /// The contents after a call, where the guards still stand.
    pub fn contents(&self, name: &str) -> Result<Vec<u8>, String> {
        let end = self.start + self.len;
        let is_guard = |at: usize| self.buffer[at] == guard_byte(self.guard, at, end);
        if (0..self.start).chain(end..self.buffer.len()).all(is_guard) {
            Ok(self.buffer[self.start..end].to_vec())
        } else {
            Err(format!("bytes around the {name} were written to"))
        }
    }
}
