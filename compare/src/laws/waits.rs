//! How long one record waits: while a record that was put with n ahead is not handed out, all lanes together are sent fewer bytes than the setup and n give,
//! with the setup's own costliest record; and in a lane that is not shared, fewer than that less two slots and less the lag right after the put.
//!
//! T grows from take to take, so that each record is checked once, by the bytes sent before the take that hands it out; and at the list's end those that wait.

use super::ratio::Ratio;
use super::units;
use crate::calls::{Answer, Call};
use crate::numbers::*;
use crate::rules::State;
use crate::waits::{self, tighter};
use std::collections::{BTreeMap, VecDeque};
use std::fmt;

/// A record that waits: the bytes sent before its put, and its bounds.
#[derive(Clone, Copy, Debug)]
struct Mark {
    before: i64,
    span: i64,
    /// The bound by lag, where the lane is not shared.
    by_lag: Option<i64>,
    near: Near,
}

/// A wait, and how near it came to its bound.
#[derive(Clone, Copy, Debug, Default, PartialEq, Eq)]
pub struct Near {
    pub part: Ratio,
    pub weight: u16,
    pub longest: u16,
    pub framing: u8,
    pub ahead: u64,
    /// The bytes that went out, and the bytes below which they stay.
    pub sent: i64,
    pub bound: u64,
}

impl Near {
    pub fn or(self, other: Near) -> Near {
        if other.part.above(self.part) {
            other
        } else {
            self
        }
    }
}

impl fmt::Display for Near {
    fn fmt(&self, f: &mut fmt::Formatter) -> fmt::Result {
        let Near { part, weight, longest, framing, ahead, sent, bound } = self;
        write!(
            f,
            "{part} (weight {weight}, longest {longest}, h {framing}, {ahead} ahead: {sent} bytes of {bound})"
        )
    }
}

/// The lanes of docs/FAIRNESS.md's table, on a line without framing: weights, longest, records ahead.
const WEIGHTS: [u16; 4] = [1, 16, 128, 512];
const LONGEST: [u16; 3] = [64, 576, 1_500];
const AHEAD: [u64; 2] = [0, 3];

/// The nearest of each lane of that table: by weight, longest and records ahead.
pub type ByLane = BTreeMap<(u16, u16, u64), Near>;

pub struct Waits {
    /// By lane and train.
    waiting: Vec<VecDeque<Mark>>,
    /// The bytes that all lanes were sent so far, as charged.
    sent: i64,
    /// The nearest to the bound, of lanes that are not shared, and of shared ones.
    pub closest: Near,
    pub closest_shared: Near,
    pub by_lane: ByLane,
    /// The records of which the wait was checked.
    pub checked: u64,
}

impl Default for Waits {
    fn default() -> Waits {
        let waiting = vec![VecDeque::new(); place(LANES, 0)];
        let none = Near::default();
        Waits { waiting, sent: 0, closest: none, closest_shared: none, by_lane: ByLane::new(), checked: 0 }
    }
}

fn place(lane: u8, train: u8) -> usize {
    usize::from(TRAINS) * usize::from(lane) + usize::from(train)
}

impl Waits {
    pub fn step(&mut self, call: &Call, answer: Answer, after: &State) -> Result<(), String> {
        match (call.put(), answer) {
            (Some((number, train, ..)), Answer::Put(ahead)) => {
                let lane =
                    after.lane(number).ok_or("a put to a lane that is not in the setup was accepted")?;
                let span = waits::span(lane, after.framing, ahead, tighter(after));
                let lag = after.lag(number).map_err(|number| format!("lag gave {number}"))?;
                let near = Near {
                    weight: lane.plan.weight,
                    longest: lane.plan.longest,
                    framing: after.framing,
                    ahead,
                    bound: waits::bytes(span),
                    ..Near::default()
                };
                let (span, two_slots) = (units(span), 2 * units(lane.slot()));
                let by_lag = (!lane.plan.shared).then(|| span - two_slots - lag);
                let mark = Mark { before: self.sent, span, by_lag, near };
                self.waiting[place(number, train)].push_back(mark);
            }
            (None, Answer::Taken(taken)) => {
                let queue = self.waiting.get_mut(place(taken.lane, taken.train));
                let mark =
                    queue.and_then(VecDeque::pop_front).ok_or("a record was taken that no put gave")?;
                self.waited(mark)?;
                self.sent += units(charged(taken.length, after.framing));
            }
            _ => {}
        }
        Ok(())
    }

    fn waited(&mut self, mark: Mark) -> Result<(), String> {
        let sent = self.sent - mark.before;
        let units = units(UNITS_PER_BYTE_SENT) * sent;
        let near = Near { part: Ratio::new(units, mark.span), sent, ..mark.near };
        if units >= mark.span {
            return Err(format!("a record waited longer than its bound: {near}"));
        }
        if mark.by_lag.is_some_and(|bound| units >= bound) {
            return Err(format!("a record waited longer than its bound by lag: {near}"));
        }
        match mark.by_lag {
            Some(_) => {
                self.closest = self.closest.or(near);
                self.of_table(near);
            }
            None => self.closest_shared = self.closest_shared.or(near),
        }
        self.checked += 1;
        Ok(())
    }

    fn of_table(&mut self, near: Near) {
        let Near { weight, longest, framing, ahead, .. } = near;
        if framing == 0 && WEIGHTS.contains(&weight) && LONGEST.contains(&longest) && AHEAD.contains(&ahead) {
            let best = self.by_lane.entry((weight, longest, ahead)).or_insert(near);
            *best = best.or(near);
        }
    }

    /// Those that wait at the list's end.
    pub fn end(&mut self) -> Result<(), String> {
        let held: Vec<Mark> = self.waiting.iter().flatten().copied().collect();
        held.into_iter().try_for_each(|mark| self.waited(mark))
    }
}
