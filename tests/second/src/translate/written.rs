//! Translations written out by hand, word by word.

pub struct Written {
    pub name: &'static str,
    pub draft: &'static [u32],
    pub plain: &'static [u32],
}

pub const ALL: &[Written] = &[
    // "Tell 1" after a next, while 2 is not in the store.
    Written {
        name: "one watch over a next",
        draft: &[0x1000_0202, 0xB000_0201, 0x5000_0001, 0x8000_0000, 0xF000_0801, 0x3000_0002],
        plain: &[0x1000_0102, 0xB000_0201, 0x5000_0001, 0x9000_0800, 0x3000_0001],
    },
    // Watches of 2 and 3: the new token is 4.
    Written {
        name: "nested watches have one new token and two rules",
        draft: &[0x1000_0303, 0xB000_0201, 0x5000_0001, 0x8000_0000, 0xF000_0801, 0xF000_0C02, 0x3000_0003],
        plain: &[0x1000_0104, 0xB000_0201, 0x5000_0001, 0x9000_1000, 0x3000_0001, 0x2002_0204, 0x2003_0304],
    },
    // Procedure 1's root is "watch 2 next tell 1"; procedure 0 calls it, and then itself.
    Written {
        name: "a watch at a root",
        draft: &[
            0x1004_0502, // 3 tokens, 6 agents, 2 procedures
            0xB000_0201,
            0x5000_0001, // 0: tell 1
            0x8000_0000, // 1: next 0
            0xF000_0801, // 2: watch 2, body 1
            0xA000_0001, // 3: call 1
            0x8000_0003, // 4: next 3
            0x6000_1003, // 5: parallel 3 and 4
            0x3000_0005,
            0x3000_0002,
        ],
        plain: &[
            0x1004_0402, // 5 agents
            0xB000_0201,
            0x5000_0001, // 0: tell 1
            0x9000_0800, // 1: unless 2, body 0
            0xA000_0001, // 2: call 1
            0x8000_0002, // 3: next 2
            0x6000_0C02, // 4: parallel 2 and 3
            0x3000_0004,
            0x3000_0001,
        ],
    },
    // Watch 2 over "unless 2", over a next and over "unless 3": only the last asks for two tokens.
    Written {
        name: "a set of one is asked for directly",
        draft: &[
            0x1000_0603, // 4 tokens, 7 agents
            0xB000_0301,
            0x5000_0001, // 0: tell 1
            0x9000_0800, // 1: unless 2, body 0
            0x8000_0000, // 2: next 0
            0x9000_0C00, // 3: unless 3, body 0
            0x6000_0801, // 4: parallel 1 and 2
            0x6000_0C04, // 5: parallel 4 and 3
            0xF000_0805, // 6: watch 2, body 5
            0x3000_0006,
        ],
        plain: &[
            0x1000_0504, // 5 tokens, 6 agents
            0xB000_0301,
            0x5000_0001,
            0x9000_0800, // 1: unless 2, body 0
            0x9000_0800, // 2: unless 2, body 0
            0x9000_1000, // 3: unless 4, body 0
            0x6000_0801,
            0x6000_0C04,
            0x3000_0005,
            0x2002_0204, // 4 from 2
            0x2003_0304, // 4 from 3
        ],
    },
    // The tell stands under {2}, which is 4, and under {1, 3}, which is 10: as lists it would be the other way round.
    Written {
        name: "sets are compared as numbers",
        draft: &[
            0x1000_0403, // 4 tokens, 5 agents
            0xB000_0301,
            0x5000_0001, // 0: tell 1
            0xF000_0400, // 1: watch 1, body 0
            0xF000_0C01, // 2: watch 3, body 1
            0xF000_0800, // 3: watch 2, body 0
            0x6000_0C02, // 4: parallel 2 and 3
            0x3000_0004,
        ],
        plain: &[
            0x1000_0203, // 3 agents
            0xB000_0301,
            0x5000_0001, // 0: tell 1 under {2}
            0x5000_0001, // 1: tell 1 under {1, 3}
            0x6000_0001, // 2: parallel 1 and 0
            0x3000_0002,
        ],
    },
    // A next under {1, 3}, which is 10, and under {2, 3}, which is 12; the old rule and fact stay first.
    Written {
        name: "new rules stand by new token and then member",
        draft: &[
            0x1000_0603, // 4 tokens, 7 agents
            0xB000_0301,
            0x5000_0001, // 0: tell 1
            0x8000_0000, // 1: next 0
            0xF000_0401, // 2: watch 1, body 1
            0xF000_0801, // 3: watch 2, body 1
            0x6000_0803, // 4: parallel 3 and 2
            0xF000_0C04, // 5: watch 3, body 4
            0xF000_0C05, // 6: watch 3, body 5
            0x3000_0006,
            0x2003_0200,
            0x2800_0001,
        ],
        plain: &[
            0x1000_0405, // 6 tokens, 5 agents
            0xB000_0301,
            0x5000_0001, // 0: tell 1 under {1, 3}
            0x5000_0001, // 1: tell 1 under {2, 3}
            0x9000_1000, // 2: unless 4, body 0
            0x9000_1401, // 3: unless 5, body 1
            0x6000_0803, // 4: parallel 3 and 2
            0x3000_0004,
            0x2003_0200,
            0x2800_0001,
            0x2001_0104, // 4 from 1
            0x2003_0304, // 4 from 3
            0x2002_0205, // 5 from 2
            0x2003_0305, // 5 from 3
        ],
    },
    // "Next tell 1" under {1, 2}, by a watch of 1 over one of 2, one of 2 over one of 1, and one of 1 once more; the
    // other tell is on no path.
    Written {
        name: "a pair is copied once",
        draft: &[
            0x1000_0902, // 3 tokens, 10 agents
            0xB000_0201,
            0x5000_0001, // 0: tell 1
            0x5000_0002, // 1: tell 2, on no path
            0x8000_0000, // 2: next 0
            0xF000_0402, // 3: watch 1, body 2
            0xF000_0803, // 4: watch 2, body 3
            0xF000_0802, // 5: watch 2, body 2
            0xF000_0405, // 6: watch 1, body 5
            0xF000_0406, // 7: watch 1, body 6
            0x6000_1004, // 8: parallel 4 and 4
            0x6000_1C08, // 9: parallel 8 and 7
            0x3000_0009,
        ],
        plain: &[
            0x1000_0303, // 4 tokens, 4 agents
            0xB000_0201,
            0x5000_0001, // 0: tell 1
            0x9000_0C00, // 1: unless 3, body 0
            0x6000_0401, // 2: parallel 1 and 1
            0x6000_0402, // 3: parallel 2 and 1
            0x3000_0003,
            0x2001_0103, // 3 from 1
            0x2002_0203, // 3 from 2
        ],
    },
    // "Tell 1 beside watch 2 next call 0": procedure 0 also stands under {2}. A when asks for its own token alone, and
    // the procedure that nothing calls is dropped.
    Written {
        name: "a call hands the set on",
        draft: &[
            0x1004_0603, // 4 tokens, 7 agents, 2 procedures
            0xB000_0301,
            0x5000_0001, // 0: tell 1
            0x7000_0C00, // 1: when 3, body 0
            0xA000_0000, // 2: call 0
            0x8000_0002, // 3: next 2
            0xF000_0803, // 4: watch 2, body 3
            0x6000_1001, // 5: parallel 1 and 4
            0x4000_0001, // 6: abort
            0x3000_0005,
            0x3000_0006,
        ],
        plain: &[
            0x1004_0703, // 4 tokens, 8 agents, 2 procedures
            0xB000_0301,
            0x5000_0001, // 0: tell 1
            0x5000_0001, // 1: tell 1 under {2}
            0x7000_0C00, // 2: when 3, body 0
            0x7000_0C01, // 3: when 3, body 1, under {2}
            0xA000_0001, // 4: call 0 under {2}
            0x9000_0804, // 5: unless 2, body 4: next 2 under {2}
            0x6000_1402, // 6: parallel 2 and 5
            0x6000_1403, // 7: parallel 3 and 5
            0x3000_0006,
            0x3000_0007,
        ],
    },
    // Sets of tokens up to 254: {127} is less than {128}, and {0, 254} more than both. The new token is 255.
    Written {
        name: "tokens of both halves",
        draft: &[
            0x1000_07FE, // 255 tokens, 8 agents
            0xB000_FE00,
            0x4000_0000, // 0: skip
            0x8000_0000, // 1: next 0
            0xF003_F801, // 2: watch 254, body 1
            0xF000_0002, // 3: watch 0, body 2
            0xF002_0001, // 4: watch 128, body 1
            0xF001_FC01, // 5: watch 127, body 1
            0x6000_1003, // 6: parallel 3 and 4
            0x6000_1805, // 7: parallel 5 and 6
            0x3000_0007,
        ],
        plain: &[
            0x1000_07FF, // 256 tokens, 8 agents
            0xB000_FE00,
            0x4000_0000, // 0: skip under {127}
            0x4000_0000, // 1: skip under {128}
            0x4000_0000, // 2: skip under {0, 254}
            0x9001_FC00, // 3: unless 127, body 0
            0x9002_0001, // 4: unless 128, body 1
            0x9003_FC02, // 5: unless 255, body 2
            0x6000_1005, // 6: parallel 5 and 4
            0x6000_1803, // 7: parallel 3 and 6
            0x3000_0007,
            0x2000_00FF, // 255 from 0
            0x20FE_FEFF, // 255 from 254
        ],
    },
];
