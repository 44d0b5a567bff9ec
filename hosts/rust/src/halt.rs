//! The small halt: lanes 0 to 3 of weights 512, 256, 128 and 128, longest 256 each, no framing bytes, none shared. Its calls are those of the crate's
//! root on a table of that setup; a table of another setup, or with a settings page that waits, gives 10.
//!
//! A lane that holds a record and sends none sees fewer than 2,304 bytes sent in lane 0, 4,352 in lane 1, 8,448 in lanes 2 and 3.

use crate::boundary::halt;
use crate::{answer, record, Record, Refusal, Sets};

/// Makes the halt's fresh table in the lent bytes; the number of lanes, 4. Refused with 7, as the setup is, then with 90 if it is another one.
pub fn make(setup: &[u8], table: &mut [u8]) -> Result<u64, Refusal> {
    answer(halt::make(setup, table)).map(|words| words[0])
}

/// Puts a record into a lane; how many the lane held before it.
pub fn put(table: &mut [u8], lane: u8, mark: u32, length: u64) -> Result<u64, Refusal> {
    answer(halt::put(table, lane, mark, length)).map(|words| words[0])
}

/// Takes the next record.
pub fn take(table: &mut [u8]) -> Result<Record, Refusal> {
    record(halt::take(table))
}

/// Looks at the record that [`take`] would take.
pub fn look(table: &[u8]) -> Result<Record, Refusal> {
    record(halt::look(table))
}

/// The group sets.
pub fn sets(table: &[u8]) -> Result<Sets, Refusal> {
    answer(halt::sets(table)).map(|[er, ir, eb, ib]| Sets { er, ir, eb, ib })
}

/// How far the clock is ahead of a lane.
pub fn lag(table: &[u8], lane: u8) -> Result<i64, Refusal> {
    answer(halt::lag(table, lane)).map(|words| words[0] as i64)
}

/// Gives the halt's fresh table again, once no record is held.
pub fn restart(table: &mut [u8]) -> Result<(), Refusal> {
    answer(halt::restart(table)).map(|_| ())
}
