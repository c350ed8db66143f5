//! The sizes and words of include/score.h, each by its name there without SCORE_. The C compiler holds them to the header:
//! build.rs hands them to header.c.

macro_rules! sizes {
    ($($name:ident: $kind:ty = $value:expr;)*) => {
        $(pub const $name: $kind = $value;)*

        /// All of them, by name.
        #[allow(dead_code)]
        pub const ALL: &[(&str, u64)] = &[$((stringify!($name), $name as u64)),*];
    };
}

sizes! {
    MAX_TOKENS: usize = 256;
    MAX_AGENTS: usize = 1024;
    MAX_PROCEDURES: usize = 64;
    MAX_RULES: usize = 256;
    MAX_BYTES: usize = 5384;
    PLAIN_BYTES: usize = 5384;
    STATE_BYTES: usize = 136;
    MAP_BYTES: usize = 32;
    SCRATCH_BYTES: usize = 128;
    MAX_JOURNAL_INSTANT_BYTES: usize = 2052;
    STATE_RUNNING: u32 = 0xF0000000;
    INSTANT_WORD: u32 = 0xC0000000;
    INPUT_WORD: u32 = 0xD0000000;
    OUTPUT_WORD: u32 = 0xE0000000;
    KIND_MASK: u32 = 0xF0000000;
    STATUS_MASK: u32 = 0x00000003;
    TOKEN_MASK: u32 = 0x000000FF;
    ROOM: u32 = 15;
}
