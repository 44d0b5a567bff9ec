//! Lists that drive one lane to demand 3's bound: 1,024 T - c O over a stretch comes near 4 slots and a longest record.
//!
//! Over a stretch in which V never jumps that is what the lane's lag rises by: from -2s, where it has been served ahead of the clock, to 2s, where it has been
//! kept waiting. Lane 0 is driven through both:
//!
//! - It is alone. A record brings its S to just under the end of a slot, the next one costs a whole slot: F comes to just under V + 2s. It runs empty.
//! - The others begin, and so V stays when lane 0 gets records again: a short one, and one that is still held at the end. Here the stretch begins.
//! - The others have all of the line's other weight, and are kept filled. They go first as long as their finishes are earlier: until V has come to the finish
//!   of lane 0's slot, which is some three slots further.
//! - Then the short record goes out. It is just long enough to bring S over the end of the slot, to the beginning of the next one. Again the others go first,
//!   until V has come to the finish of that one, two slots further than S.
//!
//! While lane 0 waits the others have its share too: over four slots they come 4 / 1,024 of one ahead of the clock, for a weight of 1. They must stay eligible
//! all that time, else lane 0 is served. So each of their records costs a whole slot of theirs, which is the same for all; their first ones bring V and every S
//! to the end of a slot, so that V may fall back by as much as a slot before none of them is eligible; and that slot is some 1 / 128 of lane 0's. With greater
//! ones the others stop too early: they go first only if they finish two of their slots before lane 0's slot does.
//!
//! What is missing at the end: what V moves by while lane 0 runs ahead, the short record's cost, and what the others stop before the end.

use super::lent::Lent;
use super::lists::List;
use super::report::{hex, Found, Tally};
use super::waits::fill;
use crate::calls::{Answer, Call};
use crate::gen::setups;
use crate::numbers::*;
use crate::rng::Rng;
use crate::rules::State;
use crate::setup::{LanePlan, Setup};
use crate::unit::Unit;

/// The case of this number, with other random numbers than those of the other comparisons.
pub fn one<U: Unit>(unit: &mut U, seed: u64, number: u64, tally: &mut Tally) -> Result<(), Found> {
    case(unit, &mut Rng::of_case(seed ^ 0x0003_0099_0000_0000, number), tally)
}

/// Lane 0 is light, and its longest record costs a whole slot or nearly. The others have all of the line's other weight, and all nearly the same slot.
fn setup(rng: &mut Rng) -> Setup {
    let framing = rng.pick(&[0, 0, 0, 1, 20]);
    let weight = rng.pick(&[1, 1, 1, 2]);
    let charged = rng.pick(&[256, 512, 1_024, 1_024]);
    let less = if rng.once_in(4) { rng.below(9) as u16 } else { 0 };
    let own = LanePlan { number: 0, weight, longest: charged - u16::from(framing) - less, shared: false };
    // A slot of lane 0 is as long as so many of the others'.
    let slots = rng.pick(&[64, 128, 128, 128, 256]);
    let slot = u32::from(charged) * (1 << 20) / u32::from(weight) / slots;
    let mut lanes = vec![own];
    for (number, weight) in (1..).zip(weights(rng, *WEIGHT.end() - weight, slot, framing)) {
        lanes.push(LanePlan { number, weight, longest: longest(weight, slot, framing), shared: false });
    }
    Setup { format: 1, framing, lanes }
}

/// The greatest longest with which a record of a lane of this weight costs no more than the slot; it may be outside a longest's numbers.
fn longest(weight: u16, slot: u32, framing: u8) -> u16 {
    let c = UNITS_OF_A_FULL_LINE as u32;
    let c = (c + u32::from(weight) - 1) / u32::from(weight);
    (slot / c).saturating_sub(framing.into()).min(u16::MAX.into()) as u16
}

/// Powers of two, which c needs no rounding for, and one weight that is what is left; each with a longest within its numbers, if that can be.
fn weights(rng: &mut Rng, all: u16, slot: u32, framing: u8) -> Vec<u16> {
    let fits = |weight: &u16| LONGEST.contains(&longest(*weight, slot, framing));
    let most = (1..=all).rev().find(fits).unwrap_or(all);
    let least = (1..=all).find(fits).unwrap_or(1);
    let mut rest = all;
    let mut weights = vec![];
    while rest > most && weights.len() < 60 {
        let most = most.min(rest - least);
        let high = (0..10).map(|i| 1 << i).filter(|weight| *weight <= most).max().unwrap_or(1);
        let weight = if high / 2 >= least && rng.once_in(4) { high / 2 } else { high };
        weights.push(weight);
        rest -= weight;
    }
    weights.push(rest);
    weights
}

fn case<U: Unit>(unit: &mut U, rng: &mut Rng, tally: &mut Tally) -> Result<(), Found> {
    let setup = setup(rng);
    let bytes = setups::bytes(rng, &setup);
    let mut table = Lent::new(rng, unit.table_size());
    let made = unit.make(&bytes, table.bytes());
    let shown = |calls: &[(Call, Answer)]| {
        let calls = calls.iter().map(|(call, answer)| format!("{call} -> {answer}"));
        [format!("make {}", hex(&bytes))].into_iter().chain(calls).collect()
    };
    if made != Ok(setup.lanes.len() as u64) {
        return Err(Found::new(format!("a valid setup gave {made:?}"), shown(&[])));
    }
    let mut list = List::plain(unit, table, State::fresh(&setup));
    let result = drive(&mut list, rng, tally);
    tally.cases += 1;
    tally.list(&list.laws);
    result.map_err(|what| Found::new(what, shown(&list.calls)))
}

fn drive<U: Unit>(list: &mut List<U>, rng: &mut Rng, tally: &mut Tally) -> Result<(), String> {
    let others: Vec<LanePlan> = list.state.lanes[1..].iter().map(|lane| lane.plan).collect();
    let longest = u64::from(list.state.lanes[0].plan.longest);
    let put = |mark: u32, length: u64| Call::Put { lane: 0, mark, length };
    for _ in 0..rng.between(1, 3) {
        run_ahead(list, tally)?;
    }
    for other in &others {
        let length = to_the_slots_end(&list.state, other.number);
        list.call(Call::Put { lane: other.number, mark: 1, length }, tally)?;
    }
    let short = over_the_slot(&list.state);
    list.call(put(8, short), tally)?;
    list.call(put(9, longest), tally)?;
    loop {
        fill(list, &others, true, rng, tally)?;
        if rng.once_in(64) {
            let look = rng.pick(&[Call::Look, Call::Sets, Call::Lag { lane: 0 }].each_ref()).clone();
            list.call(look, tally)?;
        }
        match list.call(Call::Take, tally)? {
            Answer::Taken(taken) if taken.lane == 0 && taken.mark == 9 => return Ok(()),
            Answer::Taken(_) => {}
            answer => return Err(format!("a record waits, and take gave {answer}")),
        }
    }
}

/// A record that leaves the S of a lane that begins now just under the end of its slot.
fn to_the_slots_end(state: &State, number: u8) -> u64 {
    let lane = state.lane(number).expect("a lane of the setup");
    let left = lane.slot() - 1 - state.clock % lane.slot();
    let bytes = left / lane.units_per_byte - i128::from(state.framing);
    bytes.clamp(1, lane.plan.longest.into()) as u64
}

/// The shortest record of lane 0 that brings its S, which is F now, to the end of its slot or over it.
fn over_the_slot(state: &State) -> u64 {
    let lane = &state.lanes[0];
    let left = lane.slot() - lane.finish % lane.slot();
    let bytes = (left + lane.units_per_byte - 1) / lane.units_per_byte - i128::from(state.framing);
    bytes.clamp(1, lane.plan.longest.into()) as u64
}

/// Lane 0 alone: a record that brings S to where one of a byte reaches over the end of the slot, then one of the longest.
fn run_ahead<U: Unit>(list: &mut List<U>, tally: &mut Tally) -> Result<(), String> {
    let state = &list.state;
    let lane = &state.lanes[0];
    let (c, h, longest) = (lane.units_per_byte, i128::from(state.framing), i128::from(lane.plan.longest));
    // V goes to R with the put, if it is behind it.
    let start = lane.finish.max(state.clock);
    let left = lane.slot() - start % lane.slot();
    let length = (left - c * (1 + h)) / c - h;
    // S may be there already.
    for length in [length.min(longest), longest].into_iter().filter(|length| *length > 0) {
        list.call(Call::Put { lane: 0, mark: 2, length: length as u64 }, tally)?;
        list.call(Call::Take, tally)?;
    }
    Ok(())
}
