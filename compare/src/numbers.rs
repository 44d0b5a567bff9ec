//! The numbers of the rules, each named once.

use std::ops::RangeInclusive;

/// R1.1: how many lane numbers there are, from 0 on.
pub const LANES: u8 = 64;
/// R1.2: a lane's weight,
pub const WEIGHT: RangeInclusive<u16> = 1..=1_024;
/// and the most that all weights sum to.
pub const WEIGHT_SUM: u32 = 1_024;
/// R1.3: a lane's longest, in bytes.
pub const LONGEST: RangeInclusive<u16> = 64..=1_500;
/// R8.7
pub const FORMATS: RangeInclusive<u16> = 1..=2;

/// What a lane field of length 3 means, by the setup's format.
pub fn longest_unsaid(format: u16) -> u16 {
    match format {
        2 => 576,
        _ => 1_500,
    }
}

/// R1.7: the records that a lane has room for.
pub const DEPTH: usize = 64;
/// What it had room for before, in the tables that are converted.
pub const OLD_DEPTH: usize = 16;

/// R18.2: the trains of a shared lane, and the room of each.
pub const TRAINS: u8 = 8;
pub const TRAIN_DEPTH: usize = 8;

/// R1.8: c times w, before c is rounded up.
pub const UNITS_OF_A_FULL_LINE: i128 = 1_048_576;
/// R1.9: what V moves by for a byte.
pub const UNITS_PER_BYTE_SENT: i128 = 1_024;
/// A put that finds V here or further takes the clock back (R5.1).
pub const CLOCK_FAR: i128 = 1 << 61;
/// It takes off a multiple of this, the greatest slot of all,
pub const CLOCK_STEP: i128 = 1 << 31;
/// and leaves V at this or more: every S of a good table lies less than that behind V.
pub const CLOCK_KEPT: i128 = 1 << 33;
/// So in a table that calls made V stays below this.
pub const CLOCK_EARLY: i128 = CLOCK_FAR + (1 << 44);
/// Where refusal 14 stood, which is not given any more.
pub const OLD_CLOCK_EDGE: i128 = 1 << 62;
/// R6.5: V of a good table is below this,
pub const CLOCK_END: i128 = (1 << 62) + (1 << 44);
/// R7.3: and this was the end for tables with room for 16.
pub const OLD_CLOCK_END: i128 = (1 << 62) + (1 << 42);
/// R1.4: h, the framing bytes that the line charges for each record.
pub const FRAMING: RangeInclusive<u8> = 0..=64;

/// R1.6: what F and V go by, and what T and O count.
pub fn charged(length: u64, framing: u8) -> i128 {
    i128::from(length) + i128::from(framing)
}

/// R1.12: 1,024 times what the longest record that any setup allows is charged; 1,536,000 where h is 0.
pub fn margin(framing: u8) -> i128 {
    UNITS_PER_BYTE_SENT * charged(u64::from(*LONGEST.end()), framing)
}

/// R10.4: a run's greatest limit, which is the program's.
pub const LIMIT: u64 = 1_000;
/// Refusal 17: the answer area has 64 bytes for each of limit + 2 lines.
pub const BYTES_PER_LINE: u128 = 64;
/// Refusal 18: the longest input of the program (R10.15).
pub const PROGRAM_INPUT: usize = 32_768;

/// R14: the numbers of refusals.
pub mod refusal {
    pub const CUT: u8 = 1;
    pub const TAG: u8 = 2;
    pub const LENGTH_OF_FIELD: u8 = 3;
    pub const ORDER: u8 = 4;
    pub const WEIGHTS: u8 = 6;
    pub const TABLE_SHORT: u8 = 7;
    pub const NOT_GOOD: u8 = 10;
    pub const NO_SUCH_LANE: u8 = 11;
    pub const LENGTH: u8 = 12;
    pub const LANE_FULL: u8 = 13;
    pub const STILL_HELD: u8 = 15;
    pub const NOTHING_HELD: u8 = 16;
    pub const RUN_AREA: u8 = 17;
    pub const INPUT_LONG: u8 = 18;
    // R14.7 to R14.11: a setup's own numbers.
    pub const FORMAT: u8 = 50;
    pub const LANE: u8 = 51;
    pub const WEIGHT: u8 = 52;
    pub const LONGEST: u8 = 53;
    pub const FRAMING: u8 = 54;
    // R19: editions.
    pub const OLD_EDITION: u8 = 60;
    // R18: trains.
    pub const NO_TRAIN: u8 = 70;
    pub const TRAIN_FULL: u8 = 71;
    // R12: a sheet.
    pub const SHEET_BYTE: u8 = 80;
    pub const SHEET_CUT: u8 = 81;
    // R20: the small halt.
    pub const NOT_A_HALT: u8 = 90;
}
