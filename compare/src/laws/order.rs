//! Every accepted record is handed out once, in its train's order, or still held: for each lane and train, accepted is
//! handed out followed by held. An accepted put tells how many of its train's records are held before it. A lane that is
//! not shared has the train 0 alone.

use crate::calls::{Answer, Call};
use crate::rules::State;
use std::collections::{BTreeMap, VecDeque};

#[derive(Default)]
pub struct Order {
    /// For each lane and train the records that were accepted and not yet handed out.
    waiting: BTreeMap<(u8, u8), VecDeque<(u32, u64)>>,
}

impl Order {
    pub fn step(&mut self, call: &Call, answer: Answer) -> Result<(), String> {
        if let (Some((lane, train, mark, length)), Answer::Put(told)) = (call.put(), answer) {
            let waiting = self.waiting.entry((lane, train)).or_default();
            let ahead = waiting.len() as u64;
            if told != ahead {
                return Err(format!("a put to lane {lane} told {told} ahead of it where {ahead} are"));
            }
            waiting.push_back((mark, length));
        }
        match (call, answer) {
            (Call::Take, Answer::Taken(taken)) => {
                let first = self.waiting.entry((taken.lane, taken.train)).or_default().pop_front();
                if first != Some((taken.mark, taken.length)) {
                    return Err(format!("{taken:?} was handed out where {first:?} is the train's first"));
                }
            }
            (Call::Restart, Answer::Restarted) if self.waiting.values().any(|queue| !queue.is_empty()) => {
                return Err("a restart was accepted while a record is held".to_string());
            }
            _ => {}
        }
        Ok(())
    }

    pub fn end(&self, state: &State) -> Result<(), String> {
        let mut held = BTreeMap::new();
        for lane in &state.lanes {
            for (train, queue) in lane.waiting.queues() {
                let queue: VecDeque<(u32, u64)> =
                    queue.iter().map(|record| (record.mark, record.length)).collect();
                held.insert((lane.plan.number, train), queue);
            }
        }
        let some = |all: &BTreeMap<(u8, u8), VecDeque<(u32, u64)>>| {
            let mut all = all.clone();
            all.retain(|_, queue| !queue.is_empty());
            all
        };
        let (waiting, held) = (some(&self.waiting), some(&held));
        if waiting != held {
            return Err(format!("the table holds {held:?} where {waiting:?} is left of its puts"));
        }
        Ok(())
    }
}
