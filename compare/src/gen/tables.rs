//! Tables that no call made: contents at the edges of what is good (R6), words and bits changed, and noise; in today's layout or in the one before it.

use super::{offers, setups, trains};
use crate::layout::*;
use crate::numbers::*;
use crate::pages::Page;
use crate::rng::Rng;
use crate::rules::{taken_off, Lane, Record, State, Waiting};
use crate::setup::LanePlan;
use crate::slots;

/// Bytes that no contents give a meaning: all the same, or random.
pub fn blank(rng: &mut Rng, form: &Form) -> Vec<u8> {
    match rng.below(4) {
        0 => vec![0; form.size],
        1 => vec![0xFF; form.size],
        _ => rng.noise(form.size),
    }
}

/// Bytes with these contents, and anything where they have no meaning.
pub fn written(rng: &mut Rng, form: &Form, state: &State) -> Vec<u8> {
    let mut bytes = blank(rng, form);
    form.write(state, &mut bytes);
    bytes
}

/// Contents near the edges of what is good, on one side or the other, in a table of their own.
pub fn laid(rng: &mut Rng, form: &Form) -> Vec<u8> {
    let setup = if form.trains { setups::setup(rng) } else { setups::plain(rng) };
    // A fault in some lane once in three tables.
    let faults = 3 * setup.lanes.len() as u64;
    let framing = setup.framing;
    let clock = clock(rng, form, framing, &setup.lanes);
    // Of eight lanes so many hold records.
    let held = rng.pick(&[0, 1, 2, 8, 8]);
    let mut lanes: Vec<Lane> = vec![];
    for plan in setup.lanes {
        let holds = rng.below(8) < held;
        lanes.push(lane(rng, form, plan, framing, clock, holds, faults));
    }
    if rng.once_in(10) {
        // No lane is eligible: each begins in the slot after the clock's.
        for lane in lanes.iter_mut().filter(|lane| lane.holds()) {
            let next = clock - clock % lane.slot() + lane.slot() + i128::from(rng.below(1 << 16));
            *lane = Lane::of(lane.plan, framing, lane.waiting.clone(), next, lane.since);
        }
    } else if !lanes.iter().any(|lane| lane.eligible(clock)) {
        if let Some(lane) = lanes.iter_mut().find(|lane| lane.holds()) {
            let now = clock - clock % lane.slot();
            *lane = Lane::of(lane.plan, framing, lane.waiting.clone(), now, lane.since);
        }
    }
    let back = back(rng);
    let mut state = State::of(clock, framing, lanes, back);
    if form.pages {
        lay_page(rng, &mut state);
    }
    written(rng, form, &state)
}

/// An edition that was taken, and mostly where a record is held a page that waits.
fn lay_page(rng: &mut Rng, state: &mut State) {
    let any = rng.below(65_536) as u16;
    state.edition = rng.pick(&[0, 0, 1, 65_534, 65_535, any]);
    let held = state.holding().next().is_some();
    if rng.once_in(if held { 2 } else { 24 }) {
        let (above, any) =
            (state.edition.saturating_add(1), state.edition.saturating_add(rng.below(65_536) as u16));
        state.page = Some(Page { edition: rng.pick(&[above, any, 65_535]), setup: setups::setup(rng) });
    }
}

/// The clock was taken back by some multiple of 2^31, or never.
pub fn back(rng: &mut Rng) -> i128 {
    let back = rng.below(32) << 31;
    rng.pick(&[0, back]).into()
}

fn clock(rng: &mut Rng, form: &Form, framing: u8, lanes: &[LanePlan]) -> i128 {
    let end = rng.pick(&[form.clock_end, form.clock_end, OLD_CLOCK_END]);
    match rng.below(13) {
        0 => 0,
        1 => i128::from(rng.below(1 << 34)),
        2 => OLD_CLOCK_EDGE - 1 + i128::from(rng.below(2)),
        10 | 11 => CLOCK_FAR - 1 + i128::from(rng.below(3)),
        // Where what is taken off grows by another 2^31.
        12 => CLOCK_FAR + CLOCK_STEP * i128::from(rng.below(1 << 28)) - 1 + i128::from(rng.below(3)),
        3 => end - 1 - i128::from(rng.below(3)),
        4 => end + i128::from(rng.below(2)),
        5..=7 => {
            // 1,024 (1,500 + h) past a multiple of some lane's slot, or at the multiple, or beside those: R's lower edge is met, or the edge of being eligible.
            let slot = Lane::idle(rng.pick(lanes), framing, 0).slot();
            let bits = rng.between(33, 61);
            let near = i128::from(rng.below(1 << bits));
            let past = rng.pick(&[margin(framing), margin(framing), margin(0), 0]);
            (near - near % slot + past - 1 + i128::from(rng.below(3))).max(0)
        }
        _ => i128::from(rng.below(1 << 62)),
    }
}

fn lane(
    rng: &mut Rng,
    form: &Form,
    plan: LanePlan,
    framing: u8,
    clock: i128,
    holds: bool,
    faults: u64,
) -> Lane {
    let slot = Lane::idle(plan, framing, 0).slot();
    let ahead = clock + 2 * slot;
    let within = |rng: &mut Rng, span: i128| i128::from(rng.below(span as u64));
    if !holds {
        let finish = match rng.below(6) {
            _ if rng.once_in(faults) => ahead + within(rng, 2),
            // Beside what a put takes off.
            5 if taken_off(clock) > 0 => taken_off(clock) - 1 + within(rng, 3),
            0 => 0,
            1 => ahead - 1,
            2 => clock,
            3 => clock + within(rng, 2 * slot),
            _ => within(rng, ahead),
        };
        return Lane::idle(plan, framing, finish);
    }
    // The least R above V - 2s - 1,024 (1,500 + h).
    let behind = clock - 2 * slot - margin(framing);
    let least = if behind < 0 { 0 } else { behind - behind % slot + slot };
    let start = match rng.below(6) {
        _ if rng.once_in(faults) && rng.once_in(2) => ahead + within(rng, 2),
        _ if rng.once_in(faults) => (least - 1 - within(rng, slot)).max(0),
        0 => ahead - 1,
        1 => least + within(rng, 2),
        2 => least + within(rng, slot),
        3 => clock,
        4 => clock + within(rng, 2 * slot),
        _ => clock - clock % slot,
    };
    let waiting = if plan.shared {
        trains::waiting(rng, plan.longest.into(), faults)
    } else {
        let most = form.depth;
        let count = if rng.once_in(3) { rng.pick(&[1, most - 1, most]) } else { rng.between(1, most) };
        Waiting::Own((0..count).map(|_| held(rng, plan.longest.into())).collect())
    };
    Lane::of(plan, framing, waiting, start, rng.below(1 << 60))
}

pub fn held(rng: &mut Rng, longest: u64) -> Record {
    let length = if rng.once_in(3) { rng.pick(&[1, longest]) } else { rng.between(1, longest) };
    Record { mark: rng.word() as u32, length }
}

/// One fault or change, told in words; some leave the table good, or even as it was.
pub fn damage(rng: &mut Rng, form: &Form, bytes: &mut [u8]) -> String {
    if form.pages && rng.once_in(6) {
        return offers::damage(rng, bytes);
    }
    if rng.once_in(3) {
        return super::slots::damage(rng, bytes);
    }
    let shared: Vec<u8> = present(bytes)
        .filter(|lane| form.trains && word(bytes, setting(*lane)) & SHARED_BIT != 0)
        .filter(|lane| form.ring(bytes, *lane).1 > 0)
        .collect();
    let changed = if !shared.is_empty() && rng.once_in(2) {
        let lane = rng.pick(&shared);
        trains::damage(rng, form, bytes, lane)
    } else {
        lanes(rng, form, bytes)
    };
    // A lane's S and group decide where it stands: the lists go along or stay behind.
    match form.read(bytes).state {
        Some(state) if rng.once_in(2) => {
            slots::write(&state, bytes);
            format!("{changed}, and the lists written anew")
        }
        _ => changed,
    }
}

/// A change of the clock, of the lanes, or of a word that means nothing.
fn lanes(rng: &mut Rng, form: &Form, bytes: &mut [u8]) -> String {
    let lanes: Vec<u8> = present(bytes).collect();
    let lane = if lanes.is_empty() || rng.once_in(12) { rng.below(64) as u8 } else { rng.pick(&lanes) };
    let holding: Vec<u8> = lanes.iter().copied().filter(|lane| form.ring(bytes, *lane).1 > 0).collect();
    let holder = if holding.is_empty() { lane } else { rng.pick(&holding) };
    let (at, value) = match rng.below(16) {
        0 => {
            let words = rng.pick(&[WORDS, form.size / 8]);
            let at = rng.index(words);
            flipped(rng, bytes, at)
        }
        1 | 2 => {
            let at = meaning(rng, form, bytes, lane, holder);
            flipped(rng, bytes, at)
        }
        3 => {
            let at = meaning(rng, form, bytes, lane, holder);
            (at, another(rng, bytes, at))
        }
        4 => (CLOCK, clock_near(rng, form, bytes)),
        5 if rng.once_in(2) => full_ring(rng, form, bytes, holder),
        5 => {
            let (most, high) = (form.depth, (1 << 63) / form.depth);
            let numbers = [0, 1, 2, most - 2, most - 1, most, most + 1, most + 2, 1 << 32, high];
            (ring(holder), rng.below(most) + most * rng.pick(&numbers))
        }
        6 => (setting(lane), field_of_setting(rng, word(bytes, setting(lane)))),
        7 => (setting(lane), setting_at_sum(rng, bytes, &lanes, lane)),
        8 => {
            let place = some_place(rng, form, bytes, holder);
            return length_of(rng, form, bytes, holder, place);
        }
        // Now and then of an idle lane, of which nothing is asked.
        9 => {
            let lane = rng.pick(&[holder, holder, lane]);
            let (first, count) = form.ring(bytes, lane);
            let place = first + rng.between(count.min(form.depth - 1), form.depth - 1);
            return length_of(rng, form, bytes, lane, place);
        }
        10 => (clock_word(lane), clock_word_near(rng, bytes, lane)),
        11 => {
            let any = rng.below(64) as u8;
            (PRESENT, word(bytes, PRESENT) ^ 1 << rng.pick(&[lane, holder, any]))
        }
        12 => (FRAMING_WORD, framing_near(rng, word(bytes, FRAMING_WORD))),
        13 => (DEPTH_WORD, depth_near(rng, word(bytes, DEPTH_WORD))),
        _ => {
            let place = rng.below(form.depth);
            let free = [
                2,
                5 + rng.index(75),
                83 + 4 * rng.index(64),
                if form.trains { 7_680 + rng.index(256) } else { 2 },
                1_362 + rng.index(14),
                rng.pick(&(form.words_of)(lane, place)),
                form.size / 8 - 1 - rng.index(512),
            ];
            (rng.pick(&free), rng.word())
        }
    };
    set_word(bytes, at, value);
    format!("word {at} = {value:#x}")
}

/// A word that means something.
fn meaning(rng: &mut Rng, form: &Form, bytes: &[u8], lane: u8, holder: u8) -> usize {
    let place = some_place(rng, form, bytes, holder);
    let words = [
        CLOCK,
        PRESENT,
        DEPTH_WORD,
        FRAMING_WORD,
        setting(lane),
        clock_word(lane),
        clock_word(holder),
        ring(lane),
        ring(holder),
        rng.pick(&(form.words_of)(holder, place)),
    ];
    rng.pick(&words)
}

/// The place of one of a lane's records, or some place of its ring.
fn some_place(rng: &mut Rng, form: &Form, bytes: &[u8], lane: u8) -> u64 {
    let (first, count) = form.ring(bytes, lane);
    first + rng.below(count.clamp(1, form.depth))
}

/// A place's length at an edge.
fn length_of(rng: &mut Rng, form: &Form, bytes: &mut [u8], lane: u8, place: u64) -> String {
    let longest = word(bytes, setting(lane)) & 0xFFFF;
    let edges =
        [0, 1, longest, longest + 1, longest + 65_536, 32_768, 65_535, 65_536, 1 << 31, (1 << 32) - 1];
    let record = Record { mark: rng.word() as u32, length: rng.pick(&edges) };
    (form.set_record)(bytes, lane, place, record);
    format!("place {place} of lane {lane} = {record:?}")
}

/// Valid records at all places of a lane's ring, and one less, as many or one more of them than there is room for.
fn full_ring(rng: &mut Rng, form: &Form, bytes: &mut [u8], lane: u8) -> (usize, u64) {
    let longest = (word(bytes, setting(lane)) & 0xFFFF).clamp(1, 1_500);
    let most = form.depth;
    for place in 0..most {
        let held = held(rng, longest);
        (form.set_record)(bytes, lane, place, held);
    }
    let first = rng.pick(&[0, 0, 1, 8, most - 1]);
    (ring(lane), first + most * rng.pick(&[most - 1, most, most + 1, most + 1]))
}

/// Another depth number: those of both layouts, numbers beside them, and stray bits.
fn depth_near(rng: &mut Rng, depth: u64) -> u64 {
    let more = depth ^ 1 << rng.below(64);
    rng.pick(&[0, 1, 16, 63, 64, 65, 128, u64::MAX, more, more])
}

/// Another framing number at an edge, or with a bit that none has.
fn framing_near(rng: &mut Rng, framing: u64) -> u64 {
    let more = framing | 1 << rng.between(7, 63);
    rng.pick(&[
        0,
        1,
        63,
        64,
        65,
        127,
        256,
        framing.wrapping_add(1),
        framing.wrapping_sub(1),
        more,
        more,
        more,
    ])
}

fn flipped(rng: &mut Rng, bytes: &[u8], at: usize) -> (usize, u64) {
    (at, word(bytes, at) ^ 1 << rng.below(64))
}

fn another(rng: &mut Rng, bytes: &[u8], at: usize) -> u64 {
    let value = word(bytes, at);
    let other = word(bytes, rng.index(WORDS));
    let (random, power) = (rng.word(), 1 << rng.below(64));
    rng.pick(&[0, 1, u64::MAX, value.wrapping_add(1), value.wrapping_sub(1), other, random, power, power - 1])
}

fn clock_near(rng: &mut Rng, form: &Form, bytes: &[u8]) -> u64 {
    let (clock, step) = (word(bytes, CLOCK), rng.below(1 << 33));
    let (end, older) = (form.clock_end as u64, OLD_CLOCK_END as u64);
    let (back, on) = (clock.wrapping_sub(step), clock.wrapping_add(step));
    let far = CLOCK_FAR as u64;
    rng.pick(&[0, end - 1, end, older - 1, older, 1 << 62, (1 << 62) - 1, far - 1, far, back, on])
}

/// One number of a setting word at an edge, or beside what it was.
fn field_of_setting(rng: &mut Rng, setting: u64) -> u64 {
    let (at, width) = rng.pick(&[(0, 16), (16, 16), (16, 16), (32, 8), (40, 23), (40, 24), (63, 1)]);
    let mask = (1 << width) - 1;
    let value = setting >> at & mask;
    let edges = [0, 1, 15, 16, 31, 32, 63, 64, 65, 1_024, 1_025, 1_500, 1_501, 1 << 20, mask];
    let new = match rng.below(5) {
        // A weight of 0 is the one that breaks no other clause.
        4 => 0,
        0 => rng.pick(&edges),
        1 => value + 1,
        2 => value.wrapping_sub(1),
        _ => value ^ 1 << rng.below(width),
    };
    setting & !(mask << at) | (new & mask) << at
}

/// A setting with its own c and group, whose weight brings the sum to 1,023, 1,024 or 1,025, or whose longest is at an edge.
fn setting_at_sum(rng: &mut Rng, bytes: &[u8], lanes: &[u8], lane: u8) -> u64 {
    let weight = |lane: u8| word(bytes, setting(lane)) >> 16 & 0xFFFF;
    let others: u64 = lanes.iter().filter(|other| **other != lane).map(|other| weight(*other)).sum();
    let old = word(bytes, setting(lane));
    let sum = rng.pick(&[1_023, 1_024, 1_024, 1_025, 1_025]);
    let weight = if rng.once_in(4) { weight(lane).max(1) } else { sum.max(others + 1) - others };
    let longest = if rng.once_in(2) { old & 0xFFFF } else { rng.pick(&[63, 64, 65, 1_499, 1_500, 1_501]) };
    let shared = old & SHARED_BIT != 0;
    let plan = LanePlan { number: lane, weight: weight as u16, longest: longest as u16, shared };
    let numbers = Lane::idle(plan, framing_of(bytes), 0);
    setting_of(longest, weight, numbers.group.into(), numbers.units_per_byte as u64, shared)
}

fn framing_of(bytes: &[u8]) -> u8 {
    word(bytes, FRAMING_WORD).min(u64::from(*FRAMING.end())) as u8
}

/// A lane's group by its setting: what stands in an idle lane's word means nothing.
fn group_of(bytes: &[u8], lane: u8) -> u64 {
    let numbers = word(bytes, setting(lane));
    let weight = ((numbers >> 16) as u16).max(1);
    let plan = LanePlan { number: lane, weight, longest: numbers as u16, shared: false };
    u64::from(Lane::idle(plan, framing_of(bytes), 0).group) & 31
}

/// A lane's S or F at an edge: V + 2s, the least R, V, or a slot further or back.
fn clock_word_near(rng: &mut Rng, bytes: &[u8], lane: u8) -> u64 {
    let slot = 1_u64 << group_of(bytes, lane);
    let (clock, value) = (word(bytes, CLOCK), word(bytes, clock_word(lane)));
    let ahead = clock.wrapping_add(2 * slot);
    let behind = clock.wrapping_sub(2 * slot).wrapping_sub(margin(framing_of(bytes)) as u64);
    let least = (behind - behind % slot).wrapping_add(slot);
    let choice = [
        ahead,
        ahead.wrapping_sub(1),
        ahead.wrapping_add(1),
        least,
        least.wrapping_sub(1),
        behind,
        behind.wrapping_add(1),
        clock,
        clock.wrapping_sub(1),
        clock.wrapping_add(1),
        value.wrapping_add(slot),
        value.wrapping_sub(slot),
        0,
        u64::MAX,
    ];
    rng.pick(&choice)
}
