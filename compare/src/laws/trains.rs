//! Trains of a shared lane (R15.18). What is checked is its strongest form: while one train holds records throughout a stretch, no other of its lane is sent
//! more than its bytes and three times the longest less 2, whether that one holds records throughout or comes and goes. Two trains that both hold records are two cases of it.
//!
//! With D = the other's bytes less the train's own, counted from the list's beginning, the claim is D(end) - D(begin) <= bound. So it holds of all stretches
//! exactly if it holds, at each point, against the least D since the train last began to hold.

use super::ratio::Ratio;
use crate::calls::{Answer, Call, Taken};
use crate::numbers::TRAINS;
use crate::rules::State;

const COUNT: usize = TRAINS as usize;

struct Watch {
    number: u8,
    bound: i64,
    held: [u64; COUNT],
    sent: [i64; COUNT],
    /// For each train and each other one, the least D since the train began to hold; of no meaning while it holds nothing.
    least: [[i64; COUNT]; COUNT],
    /// The most that a stretch has used.
    most: i64,
}

pub struct Even {
    lanes: Vec<Watch>,
    /// The nearest to the bound by the setups before.
    before: Ratio,
    /// Points and two trains at which all stretches that end there were checked.
    pub checked: u64,
}

/// Three times the longest less 2.
pub fn bound(longest: i64) -> i64 {
    3 * longest - 2
}

impl Even {
    pub fn new(fresh: &State) -> Even {
        let watch = |lane: &crate::rules::Lane| Watch {
            number: lane.plan.number,
            bound: bound(lane.plan.longest.into()),
            held: [0; COUNT],
            sent: [0; COUNT],
            least: [[0; COUNT]; COUNT],
            most: 0,
        };
        let lanes = fresh.lanes.iter().filter(|lane| lane.plan.shared).map(watch).collect();
        Even { lanes, before: Ratio::default(), checked: 0 }
    }

    /// The stretches by the setup that came into force behind these, with the counts so far.
    pub fn after(fresh: &State, before: &Even) -> Even {
        Even { before: before.closest(), checked: before.checked, ..Even::new(fresh) }
    }

    /// The nearest that a stretch came to its bound.
    pub fn closest(&self) -> Ratio {
        self.lanes.iter().fold(self.before, |best, watch| best.or(Ratio::new(watch.most, watch.bound)))
    }

    pub fn step(&mut self, call: &Call, answer: Answer) -> Result<(), String> {
        match (call.put(), answer) {
            (Some((lane, train, ..)), Answer::Put(_)) => {
                let Some(watch) = self.lanes.iter_mut().find(|watch| watch.number == lane) else {
                    return Ok(());
                };
                let train = usize::from(train);
                watch.held[train] += 1;
                if watch.held[train] == 1 {
                    watch.least[train] = watch.sent.map(|other| other - watch.sent[train]);
                }
                Ok(())
            }
            (None, Answer::Taken(taken)) => {
                let Some(watch) = self.lanes.iter_mut().find(|watch| watch.number == taken.lane) else {
                    return Ok(());
                };
                watch.served(taken).map(|checked| self.checked += checked)
            }
            _ => Ok(()),
        }
    }
}

impl Watch {
    /// A train was sent a record: it is ahead of each other one by more, and they of it by less; no other two are further apart than they were. Answers how
    /// many trains that hold records it was compared with.
    fn served(&mut self, taken: Taken) -> Result<u64, String> {
        let served = usize::from(taken.train);
        self.held[served] = self.held[served].checked_sub(1).ok_or("a train sent what no put gave")?;
        self.sent[served] += taken.length as i64;
        let mut checked = 0;
        for train in (0..COUNT).filter(|train| *train != served) {
            let ahead = self.sent[served] - self.sent[train];
            self.least[served][train] = self.least[served][train].min(-ahead);
            if self.held[train] == 0 {
                continue;
            }
            let used = ahead - self.least[train][served];
            if used > self.bound {
                return Err(format!(
                    "train {served} of lane {} was sent {used} bytes more than train {train}, which holds records: over {}",
                    self.number, self.bound
                ));
            }
            self.most = self.most.max(used);
            checked += 1;
        }
        Ok(checked)
    }
}
