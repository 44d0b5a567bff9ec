//! What waits in a lane: one queue, or in a shared lane the queues of its trains, served by deficit round robin (R18).

use super::Record;
use crate::numbers::{refusal, DEPTH, TRAINS, TRAIN_DEPTH};
use std::collections::VecDeque;

/// A train of a shared lane. Its deficit counts bare bytes.
#[derive(Clone, Debug, Default, PartialEq, Eq)]
pub struct Train {
    pub deficit: u64,
    pub queue: VecDeque<Record>,
}

/// The trains by number, and the round: those that hold records in the order of their turns. The first one is in turn, and its first record is the lane's.
#[derive(Clone, Debug, PartialEq, Eq)]
pub struct Trains {
    pub trains: Vec<Train>,
    pub round: VecDeque<u8>,
}

impl Default for Trains {
    fn default() -> Trains {
        Trains { trains: vec![Train::default(); usize::from(TRAINS)], round: VecDeque::new() }
    }
}

#[derive(Clone, Debug, PartialEq, Eq)]
pub enum Waiting {
    Own(VecDeque<Record>),
    Shared(Trains),
}

impl Waiting {
    pub fn none(shared: bool) -> Waiting {
        if shared {
            Waiting::Shared(Trains::default())
        } else {
            Waiting::Own(VecDeque::new())
        }
    }

    /// How many records wait, of all trains.
    pub fn len(&self) -> usize {
        match self {
            Waiting::Own(queue) => queue.len(),
            Waiting::Shared(trains) => trains.trains.iter().map(|train| train.queue.len()).sum(),
        }
    }

    pub fn is_empty(&self) -> bool {
        match self {
            Waiting::Own(queue) => queue.is_empty(),
            Waiting::Shared(trains) => trains.round.is_empty(),
        }
    }

    /// A train's own queue; a lane that is not shared has train 0 alone.
    pub fn queue(&self, train: u8) -> Option<&VecDeque<Record>> {
        match self {
            Waiting::Own(queue) => Some(queue).filter(|_| train == 0),
            Waiting::Shared(trains) => trains.trains.get(usize::from(train)).map(|train| &train.queue),
        }
    }

    /// Every queue with its train's number.
    pub fn queues(&self) -> impl Iterator<Item = (u8, &VecDeque<Record>)> {
        (0..TRAINS).filter_map(|train| Some((train, self.queue(train)?)))
    }

    /// The lane's first record and its train.
    pub fn first(&self) -> Option<(u8, Record)> {
        match self {
            Waiting::Own(queue) => queue.front().map(|record| (0, *record)),
            Waiting::Shared(trains) => {
                let turn = *trains.round.front()?;
                trains.trains[usize::from(turn)].queue.front().map(|record| (turn, *record))
            }
        }
    }

    /// R18.2, R18.3: else 70.
    pub fn has_train(&self, train: u8) -> Result<(), u8> {
        self.queue(train).map(|_| ()).ok_or(refusal::NO_TRAIN)
    }

    /// Room for one more record of a train that there is: else 13, and 71 in a shared lane (R3.4).
    pub fn has_room(&self, train: u8) -> Result<(), u8> {
        match self {
            Waiting::Own(queue) if queue.len() >= DEPTH => Err(refusal::LANE_FULL),
            Waiting::Shared(trains) if trains.trains[usize::from(train)].queue.len() >= TRAIN_DEPTH => {
                Err(refusal::TRAIN_FULL)
            }
            _ => Ok(()),
        }
    }

    /// One record more for a train; the lane's longest is what a turn adds.
    pub fn put(&mut self, train: u8, record: Record, longest: u64) {
        match self {
            Waiting::Own(queue) => queue.push_back(record),
            Waiting::Shared(trains) => trains.put(train, record, longest),
        }
    }

    /// The lane's first record is handed out.
    pub fn hand_out(&mut self, longest: u64) {
        match self {
            Waiting::Own(queue) => drop(queue.pop_front()),
            Waiting::Shared(trains) => trains.hand_out(longest),
        }
    }
}

impl Trains {
    fn put(&mut self, train: u8, record: Record, longest: u64) {
        let queue = &mut self.trains[usize::from(train)].queue;
        queue.push_back(record);
        if queue.len() > 1 {
            return;
        }
        // R18.5: it goes behind the others, and if there are none its turn begins.
        self.round.push_back(train);
        if self.round.len() == 1 {
            self.turn(longest);
        }
    }

    /// R18.6
    fn turn(&mut self, longest: u64) {
        if let Some(train) = self.round.front() {
            self.trains[usize::from(*train)].deficit += longest;
        }
    }

    fn hand_out(&mut self, longest: u64) {
        let Some(number) = self.round.front().copied() else { return };
        let train = &mut self.trains[usize::from(number)];
        let gone = train.queue.pop_front().map_or(0, |record| record.length);
        train.deficit -= gone;
        match train.queue.front() {
            // R18.7: left with no record,
            None => {
                train.deficit = 0;
                self.round.pop_front();
            }
            // with what covers its next one, so that it stays in turn,
            Some(next) if next.length <= train.deficit => return,
            // or with too little, which it takes to the end of the round.
            Some(_) => self.round.rotate_left(1),
        }
        self.turn(longest);
    }
}
