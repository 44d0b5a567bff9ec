//! What a table shows to a host that asks: the clock, the editions, a lane's setting, its backlog, the records that wait, by train, and how long one can wait.

use crate::numbers::{refusal, LANES, TRAINS};
use crate::rng::Rng;
use crate::rules::State;
use crate::waits::worst;

#[derive(Clone, Copy, Debug, PartialEq, Eq)]
pub enum Ask {
    Clock,
    /// The edition last taken, and the one that waits or 0.
    Edition,
    Lane(u8),
    Backlog(u8),
    /// The record of a lane with so many before it; of a shared lane train 0's.
    Record(u8, u64),
    /// The same of a train: lane, train, how many of it are before.
    TrainRecord(u8, u8, u64),
    /// The worst wait of a record in a lane with so many before it, in bytes: by 1,500, and by the setup's greatest longest.
    Wait(u8, u64),
}

/// The four words of the answer, or a refusal by 11, 70, 16, 13 or 71.
pub fn shown(state: &State, ask: Ask) -> Result<[u64; 4], u8> {
    let lane = |number: u8| state.lane(number).ok_or(refusal::NO_SUCH_LANE);
    let word = |clock: i128| u64::try_from(clock).expect("a clock word");
    let record = |number: u8, train: u8, before: u64| {
        let queue = lane(number)?.waiting.queue(train).ok_or(refusal::NO_TRAIN)?;
        let place = usize::try_from(before).ok();
        let record = place.and_then(|place| queue.get(place)).ok_or(refusal::NOTHING_HELD)?;
        Ok([number.into(), record.mark.into(), record.length, train.into()])
    };
    match ask {
        Ask::Clock => Ok([word(state.clock), 0, 0, 0]),
        Ask::Edition => {
            let waits = state.page.as_ref().map_or(0, |page| page.edition);
            Ok([state.edition.into(), waits.into(), 0, 0])
        }
        Ask::Lane(number) => {
            let lane = lane(number)?;
            let group = u64::from(lane.group) + (u64::from(lane.plan.shared) << 32);
            Ok([lane.plan.weight.into(), lane.plan.longest.into(), state.framing.into(), group])
        }
        Ask::Backlog(number) => {
            let lane = lane(number)?;
            let time = if lane.holds() { lane.start } else { lane.finish };
            Ok([lane.waiting.len() as u64, word(time), 0, 0])
        }
        Ask::Record(number, before) => record(number, 0, before),
        Ask::TrainRecord(number, train, before) => record(number, train, before),
        Ask::Wait(number, ahead) => {
            worst(state, lane(number)?, ahead).map(|[asked, tight]| [asked, tight, 0, 0])
        }
    }
}

/// The questions that tell of everything that a table holds, but for turns, and some that are refused.
pub fn all(state: &State) -> Vec<Ask> {
    let mut asks = vec![Ask::Clock, Ask::Edition, Ask::Lane(64), Ask::Backlog(255)];
    asks.extend([Ask::Record(64, 0), Ask::TrainRecord(64, 8, 0), Ask::Wait(64, 64)]);
    for lane in &state.lanes {
        let number = lane.plan.number;
        asks.extend([Ask::Lane(number), Ask::Backlog(number), Ask::TrainRecord(number, TRAINS, 0)]);
        asks.extend([Ask::Record(number, 0), Ask::Record(number, 64), Ask::Record(number, u64::MAX)]);
        asks.extend([0, 1, 7, 8, 63, 64, u64::MAX].map(|ahead| Ask::Wait(number, ahead)));
        let trains = if lane.plan.shared { TRAINS } else { 2 };
        for train in 0..trains {
            let held = lane.waiting.queue(train).map_or(0, |queue| queue.len() as u64);
            asks.extend((0..=held).map(|before| Ask::TrainRecord(number, train, before)));
        }
    }
    asks
}

/// One question of any kind: mostly about a lane of the setup and a place near its queue's end, else about any.
pub fn drawn(rng: &mut Rng, state: &State) -> Ask {
    let own = if state.lanes.is_empty() { 0 } else { state.lanes[rng.index(state.lanes.len())].plan.number };
    let lane = match rng.below(8) {
        0 => rng.byte(),
        1 => LANES - 1 + rng.below(2) as u8,
        _ => own,
    };
    let train = match rng.below(8) {
        0 => rng.byte(),
        1 => TRAINS - 1 + rng.below(2) as u8,
        _ => rng.below(TRAINS.into()) as u8,
    };
    let before = |rng: &mut Rng, train: u8| {
        let queue = state.lane(lane).and_then(|lane| lane.waiting.queue(train));
        let held = queue.map_or(0, |queue| queue.len() as u64);
        match rng.below(8) {
            0 => rng.word(),
            1 => rng.pick(&[7, 8, 63, 64, u64::from(u32::MAX) + 1, u64::MAX]),
            _ => rng.below(held + 2),
        }
    };
    match rng.below(6) {
        0 => Ask::Clock,
        1 => Ask::Edition,
        2 => Ask::Lane(lane),
        3 => Ask::Backlog(lane),
        4 => Ask::Record(lane, before(rng, 0)),
        _ => Ask::TrainRecord(lane, train, before(rng, train)),
    }
}
