//! How long a record can wait at worst, from what the setup gives its lane: docs/FAIRNESS.md in plain arithmetic. T is the charged bytes that all lanes send
//! between its put and the take that hands it out.

use crate::numbers::*;
use crate::rules::{Lane, State};

/// Of the lane itself: what it can be charged before the record is out. In a lane that is not shared these are the records ahead; in a shared one its own
/// train's, and each of seven others may be sent as many bare bytes and three times the longest, by records of one byte.
fn own(lane: &Lane, framing: u8, ahead: u64) -> i128 {
    let longest = i128::from(lane.plan.longest);
    let ahead = i128::from(ahead);
    if !lane.plan.shared {
        return lane.units_per_byte * ahead * (longest + i128::from(framing));
    }
    let train = ahead * longest;
    let others = i128::from(TRAINS - 1) * (train + 3 * longest);
    lane.units_per_byte * (train + others) * (1 + i128::from(framing))
}

/// While the record is not out, 1,024 T is below this; `margin` is 1,024 times a record of the line.
pub fn span(lane: &Lane, framing: u8, ahead: u64, margin: i128) -> i128 {
    own(lane, framing, ahead) + 4 * lane.slot() + margin
}

/// The same in bytes: the least number that T never comes to.
pub fn bytes(span: i128) -> u64 {
    let whole = (span + UNITS_PER_BYTE_SENT - 1) / UNITS_PER_BYTE_SENT;
    u64::try_from(whole).expect("a wait of 64 bits")
}

/// 1,024 times what the greatest longest of the setup is charged.
pub fn tighter(state: &State) -> i128 {
    let longest = state.lanes.iter().map(|lane| lane.plan.longest).max().expect("a setup has a lane");
    UNITS_PER_BYTE_SENT * charged(longest.into(), state.framing)
}

/// Both figures, or the refusal of a put that finds so many ahead.
pub fn worst(state: &State, lane: &Lane, ahead: u64) -> Result<[u64; 2], u8> {
    let (room, full) = match lane.plan.shared {
        true => (TRAIN_DEPTH, refusal::TRAIN_FULL),
        false => (DEPTH, refusal::LANE_FULL),
    };
    if ahead >= room as u64 {
        return Err(full);
    }
    Ok([margin(state.framing), tighter(state)].map(|margin| bytes(span(lane, state.framing, ahead, margin))))
}
