//! Lists that make one record wait: its lane runs ahead of the clock to just under V + 2s, a record is put to it, and then the others flood. How near the wait
//! comes to its bound (`laws/waits.rs`) is what such a list is for; the calls are compared as in every list.
//!
//! A lane runs ahead furthest where nothing else waits: V stands on R, its S at the end of the slot, and a record of the longest is handed out. Until V comes
//! to the R that follows, the lane is not eligible; from there on lanes of smaller slots go before it, as long as each of their finishes is earlier. The others
//! begin before the record that waits is put: else V would go to its R at once.

use super::lent::Lent;
use super::lists::List;
use super::report::{hex, Found, Tally};
use crate::calls::{Answer, Call};
use crate::gen::setups;
use crate::numbers::*;
use crate::rng::Rng;
use crate::rules::{Lane, State};
use crate::setup::{LanePlan, Setup};
use crate::unit::Unit;

/// The lane that waits has number 0; the others have the rest of the line. A lane that is light and long waits for thousands of records: it stands beside few
/// others, which send records of 1,500 bytes.
fn setup(rng: &mut Rng) -> Setup {
    let longest = |rng: &mut Rng| match rng.below(4) {
        0 => rng.between(64, 1_500) as u16,
        _ => rng.pick(&[64, 576, 1_500]),
    };
    let weight = match rng.below(3) {
        0 => 1 + rng.below(512) as u16,
        _ => rng.pick(&[1, 2, 16, 128, 512]),
    };
    let own = longest(rng);
    let plain = LanePlan { number: 0, weight, longest: own, shared: false };
    let long = long(&plain);
    let mut lanes = vec![LanePlan { shared: !long && rng.once_in(4), ..plain }];
    let mut rest = *WEIGHT.end() - weight;
    let count = if long { rng.pick(&[1, 2]) } else { rng.pick(&[1, 1, 2, 4, 8, 21, 63]) };
    let same = longest(rng);
    for number in 1..=count {
        let left = count - number;
        let weight = if left == 0 { rest } else { (rest / (left + 1)).max(1) };
        let longest = if long {
            1_500
        } else if rng.once_in(2) {
            same
        } else {
            longest(rng)
        };
        lanes.push(LanePlan { number: number as u8, weight, longest, shared: false });
        rest -= weight;
    }
    let framing = if rng.below(4) > 0 { 0 } else { rng.pick(&[1, 20, 64]) };
    Setup { format: 1, framing, lanes }
}

pub fn case<U: Unit>(unit: &mut U, rng: &mut Rng, tally: &mut Tally) -> Result<(), Found> {
    let setup = setup(rng);
    let bytes = setups::bytes(rng, &setup);
    let mut table = Lent::new(rng, unit.table_size());
    let made = unit.make(&bytes, table.bytes());
    if made != Ok(setup.lanes.len() as u64) {
        return Err(Found::new(
            format!("a valid setup gave {made:?}"),
            vec![format!("make {}", hex(&bytes))],
        ));
    }
    let mut list = List::plain(unit, table, State::fresh(&setup));
    let result = waits(&mut list, rng, tally);
    tally.cases += 1;
    tally.list(&list.laws);
    result.map_err(|what| {
        let calls = list.calls.iter().map(|(call, answer)| format!("{call} -> {answer}"));
        Found::new(what, [format!("make {}", hex(&bytes))].into_iter().chain(calls).collect())
    })
}

fn waits<U: Unit>(list: &mut List<U>, rng: &mut Rng, tally: &mut Tally) -> Result<(), String> {
    let lane = list.state.lanes[0].clone();
    let (longest, trains) = (u64::from(lane.plan.longest), if lane.plan.shared { TRAINS } else { 1 });
    for _ in 0..rng.between(1, 3) {
        run_ahead(list, tally)?;
    }
    // Others' records of the longest or of any length; they hold two each, so that they go on. Some lanes may be held back: one of them gets a record when
    // lane 0 would be next, if it begins at V then.
    let full = long(&lane.plan) || rng.below(4) > 0;
    let (others, kept): (Vec<LanePlan>, Vec<LanePlan>) = {
        let back = rng.pick(&[1, 2, 2, 3]);
        list.state.lanes[1..].iter().map(|lane| lane.plan).partition(|plan| plan.number % back == 0)
    };
    // With records elsewhere the put that follows leaves V where it is, behind its R; else V goes there at once.
    fill(list, &others, full, rng, tally)?;
    // The records ahead of it, of its own train, and in a shared lane those of the other trains.
    let room = if lane.plan.shared { TRAIN_DEPTH } else { DEPTH } as u64;
    let ahead = if rng.once_in(2) { 0 } else { rng.pick(&[1, 3, 3, room - 1]) };
    let short = rng.once_in(2);
    for train in 1..trains {
        for _ in 0..TRAIN_DEPTH {
            let length = if short { 1 } else { longest };
            list.call(Call::PutTrain { lane: 0, train, mark: 7, length }, tally)?;
        }
    }
    for _ in 0..ahead {
        list.call(Call::Put { lane: 0, mark: 8, length: longest }, tally)?;
    }
    let length = if rng.once_in(4) { 1 } else { longest };
    list.call(Call::Put { lane: 0, mark: 9, length }, tally)?;
    loop {
        fill(list, &others, full, rng, tally)?;
        for other in &kept {
            let next = list.state.chosen().map(|lane| lane.plan.number);
            let begins = |lane: &Lane| !lane.holds() && lane.finish <= list.state.clock;
            if next == Some(0) && list.state.lane(other.number).is_some_and(begins) {
                let length = u64::from(other.longest);
                list.call(Call::Put { lane: other.number, mark: 1, length }, tally)?;
            }
        }
        for train in 1..trains {
            if list.state.lanes[0].waiting.queue(train).is_some_and(|queue| queue.len() < 2) {
                let length = if short { 1 } else { longest };
                list.call(Call::PutTrain { lane: 0, train, mark: 7, length }, tally)?;
            }
        }
        match list.call(Call::Take, tally)? {
            Answer::Taken(taken) if taken.mark == 9 => return Ok(()),
            Answer::Taken(_) => {}
            answer => return Err(format!("a record waits, and take gave {answer}")),
        }
    }
}

/// Each of these lanes holds a record more, up to two.
pub(super) fn fill<U: Unit>(
    list: &mut List<U>,
    lanes: &[LanePlan],
    full: bool,
    rng: &mut Rng,
    tally: &mut Tally,
) -> Result<(), String> {
    for lane in lanes {
        let held = list.state.lane(lane.number).map_or(0, |lane| lane.waiting.len());
        if held < 2 {
            let most = u64::from(lane.longest);
            let length = if full { most } else { rng.between(1, most) };
            list.call(Call::Put { lane: lane.number, mark: 1, length }, tally)?;
        }
    }
    Ok(())
}

/// Whether the wait is one of thousands of records.
fn long(plan: &LanePlan) -> bool {
    u32::from(plan.longest) > 64 * u32::from(plan.weight)
}

/// Lane 0 alone: a record that brings S to the end of its slot, then one of the longest.
fn run_ahead<U: Unit>(list: &mut List<U>, tally: &mut Tally) -> Result<(), String> {
    let lane = list.state.lanes[0].clone();
    let (slot, longest) = (lane.slot(), u64::from(lane.plan.longest));
    // Without others V goes to R with the next put: what is left of the slot behind S = F, in whole bytes of the lane.
    let start = lane.finish.max(list.state.clock);
    let left = slot - 1 - start % slot;
    let length = left / lane.units_per_byte - i128::from(list.state.framing);
    for length in [length.clamp(1, longest.into()) as u64, longest] {
        list.call(Call::Put { lane: 0, mark: 2, length }, tally)?;
        list.call(Call::Take, tally)?;
    }
    Ok(())
}
