//! Damaged slot lists: a lane twice, in a wrong list or left out, numbers that are no lane's, starts beside the right one, marks without a lane, and a
//! clock that was taken back by other amounts.

use crate::layout::{clock_word, set_word, setting, word};
use crate::rng::Rng;
use crate::slots::*;

/// One change of the slot lists, told in words; some leave the table good.
pub fn damage(rng: &mut Rng, bytes: &mut [u8]) -> String {
    let standing = standing(bytes);
    if standing.is_empty() || rng.once_in(8) {
        return word_of_lists(rng, bytes);
    }
    let (group, list, lane) = rng.pick(&standing);
    let ring = ring(group, list);
    match rng.below(8) {
        0 => swap(rng, bytes, ring),
        1 => place_of(rng, bytes, ring, lane),
        2 => number_of(rng, bytes, ring),
        3 => {
            let any = rng.byte();
            let first = rng.pick(&[bytes[first_place(ring)].wrapping_add(1), any, 0, 63, 64]);
            set_byte(bytes, first_place(ring), first)
        }
        4 => start_of(rng, bytes, group),
        5 => moved(rng, bytes, group, list),
        6 => own_slot(rng, bytes, lane),
        _ => word_of_lists(rng, bytes),
    }
}

fn set_byte(bytes: &mut [u8], at: usize, value: u8) -> String {
    bytes[at] = value;
    format!("byte {at} = {value}")
}

fn set(bytes: &mut [u8], at: usize, value: u64) -> String {
    set_word(bytes, at, value);
    format!("word {at} = {value:#x}")
}

/// Two lanes of a list change places.
fn swap(rng: &mut Rng, bytes: &mut [u8], ring: usize) -> String {
    let (first, count) = (usize::from(bytes[first_place(ring)]), usize::from(bytes[number(ring)]));
    let (one, two) = (place(ring, first + rng.index(count)), place(ring, first + rng.index(count)));
    bytes.swap(one, two);
    format!("bytes {one} and {two} change places")
}

/// A place of a list names another lane: one of its own list, of another, or none.
fn place_of(rng: &mut Rng, bytes: &mut [u8], ring: usize, lane: u8) -> String {
    let (first, count) = (usize::from(bytes[first_place(ring)]), usize::from(bytes[number(ring)]));
    let at = place(ring, first + rng.index(count));
    let other = rng.pick(&standing(bytes)).2;
    let any = rng.byte();
    let value = rng.pick(&[lane, other, other, lane ^ 64, lane | 128, 64, 255, any % 64, any]);
    set_byte(bytes, at, value)
}

/// How many stand in a list; the places that it reaches may hold lanes that stand there or elsewhere.
fn number_of(rng: &mut Rng, bytes: &mut [u8], ring: usize) -> String {
    let count = bytes[number(ring)];
    let value = rng.pick(&[0, count - 1, count.wrapping_add(1), count.wrapping_add(64), 64, 65, 255]);
    set_byte(bytes, number(ring), value)
}

/// A group's start off by a slot, by 32 slots, or within its slot.
fn start_of(rng: &mut Rng, bytes: &mut [u8], group: u32) -> String {
    let (at, slot) = (start(group), 1_u64 << group);
    let step = rng.pick(&[1, slot, 32 * slot, slot - 1, slot / 2]);
    let value = word(bytes, at);
    set(bytes, at, if rng.once_in(2) { value.wrapping_add(step) } else { value.wrapping_sub(step) })
}

/// A list's lanes stand in another list of the group, and the start goes along or not; S stays.
fn moved(rng: &mut Rng, bytes: &mut [u8], group: u32, list: u32) -> String {
    let other = (list + rng.pick(&[1, 16, 31])) % LISTS;
    let here = lanes(bytes, group, list);
    let ring = ring(group, other);
    bytes[number(ring)] = here.len() as u8;
    let first = usize::from(bytes[first_place(ring)]);
    here.iter().enumerate().for_each(|(i, lane)| bytes[place(ring, first + i)] = *lane);
    // Marked in both lists, the lanes stand twice.
    let both = rng.once_in(4);
    let kept = word(bytes, marks(group)) & !(u64::from(!both) << list);
    set_word(bytes, marks(group), kept | 1 << other);
    if rng.once_in(2) {
        let slot = 1_u64 << group;
        let on = u64::from((other + LISTS - list) % LISTS);
        let value = word(bytes, start(group)).wrapping_add(on * slot);
        set_word(bytes, start(group), value);
    }
    format!("list {list} of group {group} stands as list {other}")
}

/// A lane's S goes a slot on or back, or 32 of them, and its list stays.
fn own_slot(rng: &mut Rng, bytes: &mut [u8], lane: u8) -> String {
    let at = clock_word(lane % 64);
    let slot = 1_u64 << (word(bytes, setting(lane % 64)) >> 32 & 31);
    let step = rng.pick(&[slot, 32 * slot, 1]);
    let value = word(bytes, at);
    set(bytes, at, if rng.once_in(2) { value.wrapping_add(step) } else { value.wrapping_sub(step) })
}

/// One of the words of the lists: the groups that are marked, a group's lists, B, or a word that means nothing.
fn word_of_lists(rng: &mut Rng, bytes: &mut [u8]) -> String {
    let group = rng.between(16, 31) as u32;
    let marked = groups(bytes);
    let own = if marked.is_empty() { group } else { rng.pick(&marked) };
    match rng.below(6) {
        0 => {
            let any = rng.below(64);
            let bit = rng.pick(&[any, u64::from(own), u64::from(group), 15, 32]);
            set(bytes, MARKED, word(bytes, MARKED) ^ 1 << bit)
        }
        1 | 2 => {
            let (any, list) = (rng.below(64), rng.below(32));
            let bit = rng.pick(&[any, list, list, 31, 32, 63]);
            set(bytes, marks(own), word(bytes, marks(own)) ^ 1 << bit)
        }
        3 => {
            let back = word(bytes, BACK);
            let other = rng.below(32) << 31;
            let value = rng.pick(&[
                0,
                other,
                back ^ 1 << 31,
                back.wrapping_add(1),
                back ^ 1 << 30,
                1 << 36,
                back ^ 1 << 36,
                back ^ 1 << 63,
            ]);
            set(bytes, BACK, value)
        }
        4 => set(bytes, start(group), rng.word()),
        _ => {
            let ring = rng.index(512);
            let place = place(ring, rng.index(64));
            let at = rng.pick(&[first_place(ring), number(ring), place]);
            set_byte(bytes, at, rng.byte())
        }
    }
}
