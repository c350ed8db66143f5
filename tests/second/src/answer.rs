//! Answers, and how include/score.h lays them out in 64 bits.

use std::fmt;
use std::ops::RangeInclusive;

#[derive(Clone, Copy, PartialEq, Eq, Debug)]
pub enum Answer {
    /// With the instants that a run wrote or a journal check read, or the bytes that a translation wrote; a score check
    /// adds 0.
    Accepted(u64),
    /// An accepted instant.
    Instant { status: u32, count: u32 },
    /// How many settings end with status 0, with 1 and with 2.
    Settings([u32; 3]),
    /// The table's number, and the value that the table returns with it, or 0.
    Refused { number: u32, value: u64 },
}

pub const ACCEPTED: Answer = Answer::Accepted(0);

pub const fn refused(number: u32, value: u64) -> Answer {
    Answer::Refused { number, value }
}

const LAYOUT: u32 = 61;

const SETTINGS_LAYOUT: u64 = 5;
const SETTINGS_BITS: u32 = 14;

/// The numbers whose value may be as large as a buffer's count of words have layouts of their own.
const LAST: u32 = 18;
const LAST_LAYOUT: u32 = 7;
const WIDE: RangeInclusive<u32> = 13..=15;
const FIRST_WIDE: u32 = *WIDE.start();
const FIRST_WIDE_LAYOUT: u32 = 2;

impl Answer {
    pub fn number(self) -> u32 {
        match self {
            Answer::Refused { number, .. } => number,
            _ => 0,
        }
    }

    /// The instants that a run wrote that answers so, also where it was then stopped.
    pub fn written(self) -> u64 {
        match self {
            Answer::Accepted(written) | Answer::Refused { number: 15 | LAST, value: written } => written,
            _ => 0,
        }
    }

    pub fn packed(self) -> u64 {
        match self {
            Answer::Accepted(value) => value,
            Answer::Instant { status, count } => 1 << LAYOUT | u64::from(status) << 32 | u64::from(count) << 34,
            Answer::Settings([quiet, clash, aborted]) => {
                let counts = u64::from(aborted) << (2 * SETTINGS_BITS) | u64::from(clash) << SETTINGS_BITS;
                SETTINGS_LAYOUT << LAYOUT | counts | u64::from(quiet)
            }
            Answer::Refused { number, value } if WIDE.contains(&number) => {
                u64::from(number - FIRST_WIDE + FIRST_WIDE_LAYOUT) << LAYOUT | value
            }
            Answer::Refused { number: LAST, value } => u64::from(LAST_LAYOUT) << LAYOUT | value,
            Answer::Refused { number, value } => 1 << LAYOUT | value << 8 | u64::from(number),
        }
    }

    /// What the packed answer stands for; its bits outside the fields are lost.
    pub fn unpacked(packed: u64) -> Answer {
        let wide = packed & ((1 << LAYOUT) - 1);
        match (packed >> LAYOUT) as u32 {
            0 => Answer::Accepted(wide),
            1 if packed & 0xFF == 0 => {
                Answer::Instant { status: (packed >> 32 & 3) as u32, count: (packed >> 34 & 0x7FF) as u32 }
            }
            1 => refused((packed & 0xFF) as u32, packed >> 8 & 0xFF_FFFF),
            5 => Answer::Settings([0, 1, 2].map(|status| (packed >> (SETTINGS_BITS * status) & 0x3FFF) as u32)),
            LAST_LAYOUT => refused(LAST, wide),
            layout => refused(layout + FIRST_WIDE - FIRST_WIDE_LAYOUT, wide),
        }
    }
}

impl fmt::Display for Answer {
    fn fmt(&self, to: &mut fmt::Formatter) -> fmt::Result {
        match self {
            Answer::Accepted(value) => write!(to, "accepted, value {value}"),
            Answer::Instant { status, count } => write!(to, "status {status} count {count}"),
            Answer::Settings([quiet, clash, aborted]) => {
                write!(to, "{quiet} settings quiet, {clash} a clash, {aborted} aborted")
            }
            Answer::Refused { number, value } => write!(to, "number {number} value {value}"),
        }
    }
}

/// Compares all 64 bits of an answer.
pub fn same(packed: u64, expected: Answer) -> Result<(), String> {
    if packed == expected.packed() {
        return Ok(());
    }
    Err(format!("{} ({packed:#018x}), not {expected}", Answer::unpacked(packed)))
}
