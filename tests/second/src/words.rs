//! The words of a score, built from their fields.

pub fn head(tokens: u32, agents: u32, procedures: u32) -> u32 {
    0x1000_0000 | (tokens - 1) | (agents - 1) << 8 | (procedures - 1) << 18
}

pub fn ports(lowest: u32, highest: u32) -> u32 {
    0xB000_0000 | lowest | highest << 8
}

pub fn procedure(root: u32) -> u32 {
    0x3000_0000 | root
}

pub fn rule(conclusion: u32, premise: u32, other: u32) -> u32 {
    0x2000_0000 | conclusion | premise << 8 | other << 16
}

/// A rule word whose conclusion holds with no premise.
pub fn fact(conclusion: u32) -> u32 {
    0x2800_0000 | conclusion
}

pub fn skip() -> u32 {
    0x4000_0000
}

pub fn abort() -> u32 {
    0x4000_0001
}

pub fn tell(token: u32) -> u32 {
    0x5000_0000 | token
}

pub fn parallel(half: u32, other: u32) -> u32 {
    0x6000_0000 | half | other << 10
}

pub fn when(body: u32, token: u32) -> u32 {
    0x7000_0000 | body | token << 10
}

pub fn next(body: u32) -> u32 {
    0x8000_0000 | body
}

pub fn unless(body: u32, token: u32) -> u32 {
    0x9000_0000 | body | token << 10
}

pub fn call(procedure: u32) -> u32 {
    0xA000_0000 | procedure
}

/// An agent of a draft.
pub fn watch(body: u32, token: u32) -> u32 {
    0xF000_0000 | body | token << 10
}

pub fn to_bytes(words: &[u32]) -> Vec<u8> {
    words.iter().flat_map(|word| word.to_le_bytes()).collect()
}
