//! Demand 3 (R15.8, R15.9): for a lane that is busy in a stretch 1,024 T is below c O + 4 slots + M; and the tighter
//! figure, with 1,024 times the setup's greatest longest plus h in place of M. T and O count charged bytes.
//!
//! A stretch runs from one point between calls to a later one, and the lane holds a record at every point of it.
//! With X = 1,024 T - c O counted from the list's beginning, the claim is X(end) - X(begin) < bound. So it holds of
//! all stretches exactly if it holds, at each point, against the least X since the lane last began to hold: one
//! number a lane, and one pass.
//!
//! The sums are numbers of 64 bits; one that left them would stop the run.

use super::ratio::Ratio;
use super::units;
use crate::calls::{Answer, Call};
use crate::numbers::*;
use crate::rules::State;
use crate::waits::tighter;

struct Watch {
    number: u8,
    units_per_byte: i64,
    /// The tighter bound, and demand 3's own.
    bound: i64,
    plain: i64,
    /// R15.6: accepted puts to the lane, less the takes that named it.
    held: u64,
    x: i64,
    /// The least X at the points since the lane began to hold.
    least: i64,
    /// The most that a stretch has used.
    most: i64,
}

pub struct Fairness {
    lanes: Vec<Watch>,
    framing: u8,
    /// The nearest to the two bounds by the setups before.
    before: [Ratio; 2],
    /// Points and lanes at which all stretches that end there were checked.
    pub checked: u64,
}

impl Fairness {
    /// R15.5: c and the slot are the setup's.
    pub fn new(fresh: &State) -> Fairness {
        let (tight, plain) = (units(tighter(fresh)), units(margin(fresh.framing)));
        assert!(tight <= plain, "the tighter figure gives demand 3's");
        let watch = |lane: &crate::rules::Lane| Watch {
            number: lane.plan.number,
            units_per_byte: units(lane.units_per_byte),
            bound: 4 * units(lane.slot()) + tight,
            plain: 4 * units(lane.slot()) + plain,
            held: 0,
            x: 0,
            least: 0,
            most: 0,
        };
        let lanes = fresh.lanes.iter().map(watch).collect();
        Fairness { lanes, framing: fresh.framing, before: Default::default(), checked: 0 }
    }

    /// The stretches by the setup that came into force behind these, with the counts so far.
    pub fn after(fresh: &State, before: &Fairness) -> Fairness {
        Fairness { before: before.closest(), checked: before.checked, ..Fairness::new(fresh) }
    }

    /// The nearest that a stretch came to the tighter bound, and to demand 3's own.
    pub fn closest(&self) -> [Ratio; 2] {
        self.lanes.iter().fold(self.before, |[tight, plain], watch| {
            [tight.or(Ratio::new(watch.most, watch.bound)), plain.or(Ratio::new(watch.most, watch.plain))]
        })
    }

    pub fn step(&mut self, call: &Call, answer: Answer) -> Result<(), String> {
        match (call, answer) {
            (Call::Put { lane, .. } | Call::PutTrain { lane, .. }, Answer::Put(_)) => {
                let watch = self.lanes.iter_mut().find(|watch| watch.number == *lane);
                let watch = watch.ok_or("a put to a lane that is not in the setup was accepted")?;
                watch.held += 1;
                if watch.held == 1 {
                    watch.least = watch.x;
                }
            }
            (Call::Take, Answer::Taken(taken)) => {
                let bytes = units(charged(taken.length, self.framing));
                let line = units(UNITS_PER_BYTE_SENT) * bytes;
                for watch in &mut self.lanes {
                    watch.x += line;
                    if watch.number == taken.lane {
                        watch.x -= watch.units_per_byte * bytes;
                        watch.held =
                            watch.held.checked_sub(1).ok_or("a record was taken that no put gave")?;
                    }
                    if watch.held == 0 {
                        continue;
                    }
                    let used = watch.x - watch.least;
                    if used >= watch.bound {
                        return Err(format!(
                            "demand 3 fails for lane {}: 1,024 T - c O is {used} and not below {}",
                            watch.number, watch.bound
                        ));
                    }
                    watch.most = watch.most.max(used);
                    self.checked += 1;
                    watch.least = watch.least.min(watch.x);
                }
            }
            // R15.7: nothing else sends.
            _ => {}
        }
        Ok(())
    }
}
