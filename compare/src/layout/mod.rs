//! docs/TABLE.md read by itself: a lent table's words, what they mean, and which clauses of a good table (R6) they break. It shares nothing
//! with the unit's own reading. The slot lists are in [`slots`](crate::slots).
//!
//! - [`clauses`] — the clauses, and what a reader says of bytes
//! - [`form`] — reading and writing, over what tells one layout from another
//! - [`trains`] — a shared lane's trains and round
//! - [`part`] — what is kept of settings pages
//! - [`old`] — the layout before this one, with 16 places in a lane

pub mod clauses;
pub mod form;
pub mod old;
pub mod part;
pub mod trains;

pub use clauses::{Clause, Reading, CLAUSES};
pub use form::Form;

use crate::numbers::*;
use crate::rules::{Record, State};
use crate::slots;

/// A table is 65,536 bytes: 1,408 words of 64 bits, low byte first; the bytes of the slot lists' rings; the words of the marks; those of the shared lanes'
/// trains; the page's part; bytes that mean nothing.
pub const WORDS: usize = 1_408;
pub const TABLE_SIZE: usize = 65_536;
/// Where the trains' numbers end, and the page's part begins.
pub const KEPT: usize = 63_488;

/// Where the words lie.
pub const CLOCK: usize = 0;
pub const PRESENT: usize = 1;
pub const DEPTH_WORD: usize = 3;
pub const FRAMING_WORD: usize = 4;

pub fn setting(lane: u8) -> usize {
    80 + 4 * usize::from(lane)
}

pub fn clock_word(lane: u8) -> usize {
    setting(lane) + 1
}

pub fn ring(lane: u8) -> usize {
    setting(lane) + 2
}

/// Today's layout: a place's length less one lies in 16 bits, four places to a word, and its mark in 32 bits behind the slot lists.
pub const NOW: Form = Form {
    size: TABLE_SIZE,
    depth: DEPTH as u64,
    depth_word: Some(DEPTH_WORD),
    trains: true,
    idle_paced: false,
    pages: true,
    clock_end: CLOCK_END,
    record: |bytes, lane, place| {
        let length: [u8; 2] = bytes[length_byte(lane, place)..][..2].try_into().expect("two bytes");
        let mark: [u8; 4] = bytes[mark_byte(lane, place)..][..4].try_into().expect("four bytes");
        Record { mark: u32::from_le_bytes(mark), length: u64::from(u16::from_le_bytes(length)) + 1 }
    },
    set_record: |bytes, lane, place, record| {
        let less_one = record.length.wrapping_sub(1) as u16;
        bytes[length_byte(lane, place)..][..2].copy_from_slice(&less_one.to_le_bytes());
        bytes[mark_byte(lane, place)..][..4].copy_from_slice(&record.mark.to_le_bytes());
    },
    words_of: |lane, place| vec![length_byte(lane, place) / 8, mark_byte(lane, place) / 8],
};

/// The number of a place among those of all lanes.
fn place_of(lane: u8, place: u64) -> usize {
    DEPTH * usize::from(lane) + place as usize % DEPTH
}

/// Low bytes first, so that a quarter or a half of a word is where its bytes are.
pub fn length_byte(lane: u8, place: u64) -> usize {
    8 * 336 + 2 * place_of(lane, place)
}

pub fn mark_byte(lane: u8, place: u64) -> usize {
    45_056 + 4 * place_of(lane, place)
}

/// The bit of a setting word by which trains share the lane.
pub const SHARED_BIT: u64 = 1 << 63;

/// A setting word of these numbers.
pub fn setting_of(longest: u64, weight: u64, group: u64, units_per_byte: u64, shared: bool) -> u64 {
    let shared = if shared { SHARED_BIT } else { 0 };
    longest | weight << 16 | group << 32 | units_per_byte << 40 | shared
}

fn record_in(form: &Form, bytes: &[u8], lane: u8, place: u64) -> Record {
    (form.record)(bytes, lane, place)
}

pub fn word(bytes: &[u8], at: usize) -> u64 {
    u64::from_le_bytes(bytes[8 * at..8 * at + 8].try_into().expect("eight bytes"))
}

pub fn set_word(bytes: &mut [u8], at: usize, value: u64) {
    bytes[8 * at..8 * at + 8].copy_from_slice(&value.to_le_bytes());
}

pub fn present(bytes: &[u8]) -> impl Iterator<Item = u8> {
    let lanes = word(bytes, PRESENT);
    (0..LANES).filter(move |lane| lanes >> lane & 1 == 1)
}

/// What a table of today's layout says.
pub fn read(bytes: &[u8]) -> Reading {
    NOW.read(bytes)
}

pub fn write(state: &State, bytes: &mut [u8]) {
    NOW.write(state, bytes);
}

/// Moves the clock of a good table on by a multiple of 2^31, word by word, as if so much less had been taken off it: V, each S and F, the groups' starts,
/// and B the other way. No lane moves to another list.
pub fn lift(bytes: &mut [u8], up: u64) {
    let lanes = present(bytes).map(clock_word);
    let starts = slots::groups(bytes).into_iter().map(slots::start);
    for at in [CLOCK].into_iter().chain(lanes).chain(starts).collect::<Vec<usize>>() {
        set_word(bytes, at, word(bytes, at) + up);
    }
    let back = i128::from(word(bytes, slots::BACK)) - i128::from(up);
    set_word(bytes, slots::BACK, slots::stored(back));
}
