//! Two busy lanes compared (R15.10): for lanes a and b that are both busy in a stretch c O of a less c O of b is below 4 slots of a, 4 slots of b and twice M;
//! and the tighter figure, with the setup's greatest longest in place of 1,500. O counts charged bytes.
//!
//! With W = c O counted from the list's beginning and D = W of a - W of b, the claim is D(end) - D(begin) < bound. So it holds of all stretches exactly if
//! it holds, at each point, against the least D since both lanes hold: one number a pair. A take moves D of those pairs alone that the served lane is in, so
//! all stretches of a list of n calls on l lanes take n l steps.

use super::ratio::Ratio;
use super::units;
use crate::calls::{Answer, Call};
use crate::numbers::*;
use crate::rules::State;
use crate::waits::tighter;

struct Watch {
    number: u8,
    units_per_byte: i64,
    four_slots: i64,
    /// Puts accepted less records handed out.
    held: u64,
    /// W: c times the bytes charged for what was handed out.
    work: i64,
}

/// Of lanes a and b.
#[derive(Clone, Copy, Default)]
struct Pair {
    /// The least W of a - W of b at the points since both began to hold; of no meaning while one of them is idle.
    least: i64,
    /// The most that a stretch has used.
    most: i64,
}

pub struct Compared {
    lanes: Vec<Watch>,
    framing: u8,
    /// Row a, column b.
    pairs: Vec<Pair>,
    margins: i64,
    /// The nearest to a pair's bound by the setups before.
    before: Ratio,
    /// Points and pairs at which all stretches that end there were checked.
    pub checked: u64,
}

impl Compared {
    pub fn new(fresh: &State) -> Compared {
        let margin = tighter(fresh);
        assert!(margin <= crate::numbers::margin(fresh.framing), "the tighter figure gives the other");
        let watch = |lane: &crate::rules::Lane| Watch {
            number: lane.plan.number,
            units_per_byte: units(lane.units_per_byte),
            four_slots: 4 * units(lane.slot()),
            held: 0,
            work: 0,
        };
        let lanes: Vec<Watch> = fresh.lanes.iter().map(watch).collect();
        let pairs = vec![Pair::default(); lanes.len() * lanes.len()];
        let margins = 2 * units(margin);
        Compared { lanes, framing: fresh.framing, pairs, margins, before: Ratio::default(), checked: 0 }
    }

    /// The stretches by the setup that came into force behind these, with the counts so far.
    pub fn after(fresh: &State, before: &Compared) -> Compared {
        Compared { before: before.closest(), checked: before.checked, ..Compared::new(fresh) }
    }

    /// The nearest that a stretch came to a pair's bound.
    pub fn closest(&self) -> Ratio {
        let lanes = self.lanes.iter().flat_map(|a| self.lanes.iter().map(move |b| self.bound(a, b)));
        let used = self.pairs.iter().zip(lanes).filter(|(pair, _)| pair.most > 0);
        used.fold(self.before, |best, (pair, bound)| best.or(Ratio::new(pair.most, bound)))
    }

    fn bound(&self, a: &Watch, b: &Watch) -> i64 {
        a.four_slots + b.four_slots + self.margins
    }

    pub fn step(&mut self, call: &Call, answer: Answer) -> Result<(), String> {
        match (call, answer) {
            (Call::Put { lane, .. } | Call::PutTrain { lane, .. }, Answer::Put(_)) => {
                let at = self.at(*lane)?;
                self.lanes[at].held += 1;
                if self.lanes[at].held == 1 {
                    self.begins(at);
                }
                Ok(())
            }
            (Call::Take, Answer::Taken(taken)) => {
                let (at, bytes) = (self.at(taken.lane)?, units(charged(taken.length, self.framing)));
                let lane = &mut self.lanes[at];
                lane.held = lane.held.checked_sub(1).ok_or("a record was taken that no put gave")?;
                lane.work += lane.units_per_byte * bytes;
                self.served(at)
            }
            _ => Ok(()),
        }
    }

    fn at(&self, number: u8) -> Result<usize, String> {
        let at = self.lanes.iter().position(|watch| watch.number == number);
        at.ok_or_else(|| format!("lane {number} is not in the setup"))
    }

    /// Stretches in which this lane holds records begin anew with each other lane.
    fn begins(&mut self, at: usize) {
        let count = self.lanes.len();
        for other in 0..count {
            let ahead = self.lanes[at].work - self.lanes[other].work;
            self.pairs[at * count + other].least = ahead;
            self.pairs[other * count + at].least = -ahead;
        }
    }

    /// The lane was served: it is ahead of the others by more, and they of it by less.
    fn served(&mut self, at: usize) -> Result<(), String> {
        let count = self.lanes.len();
        let a = &self.lanes[at];
        if a.held == 0 {
            return Ok(());
        }
        for (other, b) in self.lanes.iter().enumerate() {
            if b.held == 0 || other == at {
                continue;
            }
            let ahead = a.work - b.work;
            let bound = self.bound(a, b);
            let pair = &mut self.pairs[at * count + other];
            let used = ahead - pair.least;
            if used >= bound {
                return Err(format!(
                    "lanes {} and {} are both busy: c O of the first less c O of the second is {used} and not below {bound}",
                    a.number, b.number
                ));
            }
            pair.most = pair.most.max(used);
            self.checked += 1;
            let back = &mut self.pairs[other * count + at];
            back.least = back.least.min(-ahead);
        }
        Ok(())
    }
}
