//! Calls from a fresh table lead to good tables only (R6.13): those clauses of R6 that speak of the contents and not of the layout.

use crate::numbers::*;
use crate::rules::{Lane, State, Trains, Waiting};

pub fn check(state: &State) -> Result<(), String> {
    check_touched(state, None)
}

/// The same after a call that put a record to one lane, or took one from it: what waits in the others is as it was, and was looked at before.
pub fn check_touched(state: &State, touched: Option<u8>) -> Result<(), String> {
    if !(0..CLOCK_END).contains(&state.clock) {
        return Err(format!("the clock {} is out of its range", state.clock));
    }
    if !FRAMING.contains(&state.framing) {
        return Err(format!("the framing number {} is out of its range", state.framing));
    }
    for lane in &state.lanes {
        let whole = touched.map_or(true, |touched| touched == lane.plan.number);
        let waiting = if whole { waiting_broken(lane) } else { None };
        if let Some(broken) = waiting.or_else(|| times_broken(lane, state.clock, state.framing)) {
            return Err(format!("lane {} of a table made by the calls: {broken}", lane.plan.number));
        }
    }
    if state.holding().next().is_some() && !state.any_eligible() {
        return Err("records are held and no lane is eligible".to_string());
    }
    Ok(())
}

/// The clause that does not hold of what waits in the lane.
fn waiting_broken(lane: &Lane) -> Option<&'static str> {
    let lengths = 1..=u64::from(lane.plan.longest);
    if lane.waiting.len() > DEPTH {
        return Some("0 to 64 records");
    }
    let mut held = lane.waiting.queues().flat_map(|(_, queue)| queue);
    if !held.all(|record| lengths.contains(&record.length)) {
        return Some("each length 1 to the lane's longest");
    }
    match &lane.waiting {
        Waiting::Shared(trains) => of_trains(trains, lane.plan.longest.into()),
        Waiting::Own(_) => None,
    }
}

/// The clause that does not hold of the lane's group, S, R and F.
fn times_broken(lane: &Lane, clock: i128, framing: u8) -> Option<&'static str> {
    let two_slots = 2 * lane.slot();
    if !(16..=31).contains(&lane.group) {
        return Some("the group lies in 16 to 31");
    }
    let Some((_, first)) = lane.waiting.first() else {
        return (lane.finish >= clock + two_slots).then_some("F below V + 2s for an idle lane");
    };
    if lane.finish != lane.start + charged(first.length, framing) * lane.units_per_byte {
        return Some("F = S + the first record's charged length times c");
    }
    if lane.start >= clock + two_slots {
        return Some("S below V + 2s");
    }
    if lane.rounded_start <= clock - two_slots - margin(framing) {
        return Some("R above V - 2s - 1,024 (1,500 + h)");
    }
    None
}

/// R18.8: deficits by the train's first record and the longest, and a round that has each train with records once.
fn of_trains(trains: &Trains, longest: u64) -> Option<&'static str> {
    for (number, train) in (0..).zip(&trains.trains) {
        let named = trains.round.iter().filter(|train| **train == number).count();
        let deficit = train.deficit;
        let Some(first) = train.queue.front() else {
            let idle = deficit == 0 && named == 0;
            if idle {
                continue;
            }
            return Some("a train that holds nothing has deficit 0 and no turn");
        };
        if named != 1 || train.queue.len() > TRAIN_DEPTH {
            return Some("a train that holds records is in the round once and holds at most 8");
        }
        let within = if trains.round.front() == Some(&number) {
            (first.length..2 * longest).contains(&deficit)
        } else {
            deficit < first.length
        };
        if !within {
            return Some("the deficits are those of the train in turn and of the others");
        }
    }
    None
}
