//! The tables that were made while a lane had room for 16 records, as docs/TABLE.md described them then: what they mean, whether they are good by the
//! rule of that time, and a take of that time. Clock, settings, clock words and slot lists lie where they lie today.

use super::{set_word, word, Form};
use crate::calls::{Answer, Call, Taken};
use crate::numbers::{refusal, OLD_CLOCK_END, OLD_DEPTH};
use crate::rules::{Record, State};

/// 45,056 bytes, a word for each place: mark + 2^32 times length. No depth number, and nothing is asked of a place without a record.
pub const THEN: Form = Form {
    size: 45_056,
    depth: OLD_DEPTH as u64,
    depth_word: None,
    trains: false,
    idle_paced: true,
    pages: false,
    clock_end: OLD_CLOCK_END,
    record: |bytes, lane, place| {
        let word = word(bytes, at(lane, place));
        Record { mark: word as u32, length: word >> 32 }
    },
    set_record: |bytes, lane, place, record| {
        set_word(bytes, at(lane, place), u64::from(record.mark) | record.length << 32);
    },
    words_of: |lane, place| vec![at(lane, place)],
};

fn at(lane: u8, place: u64) -> usize {
    336 + OLD_DEPTH * usize::from(lane) + place as usize % OLD_DEPTH
}

/// The rules of that time on contents: a put to a lane that holds 16 gave 13. All else was as it is; the clock's far end, where a put gave 14 and is taken
/// back today, is further on than the lists of that time come here.
pub fn answer(state: &mut State, call: &Call) -> Answer {
    if let Call::Put { lane, length, .. } = call {
        let full = |lane: &&crate::rules::Lane| {
            lane.waiting.len() >= OLD_DEPTH && (1..=u64::from(lane.plan.longest)).contains(length)
        };
        if state.lane(*lane).filter(full).is_some() {
            return Answer::No(refusal::LANE_FULL);
        }
    }
    state.answer(call)
}

/// A take of that time on an old table.
pub fn take(bytes: &mut [u8]) -> Result<Taken, u8> {
    let mut state = THEN.read(bytes).good().ok_or(refusal::NOT_GOOD)?;
    let taken = state.take()?;
    THEN.write(&state, bytes);
    Ok(taken)
}
