//! Lists of calls. A caller has a mood for a while (a burst of puts, a drain, a steady load, ...) and then takes
//! up another; calls that must be refused and calls that only look are strewn in.

use super::offers;
use crate::calls::{Answer, Call};
use crate::numbers::{DEPTH, TRAINS, TRAIN_DEPTH};
use crate::rng::Rng;
use crate::rules::{Lane, State};

#[derive(Clone, Copy, Debug)]
enum Mood {
    /// Puts to a few lanes.
    Burst,
    Drain,
    /// Lanes stay filled: the served lane gets the next record.
    Steady,
    /// A put, a take, a put, ...
    Sparse,
    Mixed,
    /// Puts to one lane, past its room.
    Flood,
    /// All lanes but one are kept busy; that one gets a record now and then.
    Quiet,
    /// The lanes of the highest group begin late in a slot, all at once: their finish is near, and lower groups,
    /// which never run dry, come to be blocked.
    Late,
}

const MOODS: &[Mood] = &[
    Mood::Burst,
    Mood::Drain,
    Mood::Steady,
    Mood::Sparse,
    Mood::Mixed,
    Mood::Flood,
    Mood::Quiet,
    Mood::Late,
    Mood::Late,
];

#[derive(Clone, Copy, Debug)]
enum Lengths {
    One,
    Longest,
    /// The same for all lanes, so that starts and finishes meet.
    Same(u64),
    Powers,
    /// 1 or the longest, so that deficits come to both of their ends.
    Ends,
    Any,
}

pub struct Caller {
    mood: Mood,
    left: u64,
    lengths: Lengths,
    favourites: Vec<u8>,
    /// The trains that the puts of a shared lane are for.
    trains: Vec<u8>,
    same_marks: bool,
    mark: u32,
    /// Of so many calls about one offers a page.
    offers: Option<u64>,
    last: Option<Answer>,
}

impl Caller {
    pub fn new(rng: &mut Rng) -> Caller {
        let same_marks = rng.once_in(3);
        let mark = if rng.once_in(3) { rng.pick(&[0, 1, u32::MAX]) } else { rng.word() as u32 };
        Caller {
            mood: Mood::Mixed,
            left: 0,
            lengths: Lengths::Any,
            favourites: vec![],
            trains: vec![0],
            same_marks,
            mark,
            offers: None,
            last: None,
        }
    }

    /// A caller that offers pages, too: now and then, often, or in half of the lists not at all.
    pub fn offering(rng: &mut Rng) -> Caller {
        let offers = rng.pick(&[None, None, Some(12), Some(60), Some(300)]);
        Caller { offers, ..Caller::new(rng) }
    }

    /// The answer to the last call, which the steady mood goes by.
    pub fn heard(&mut self, answer: Answer) {
        self.last = Some(answer);
    }

    pub fn next(&mut self, rng: &mut Rng, state: &State) -> Call {
        if self.left == 0 {
            self.turn(rng, state);
        }
        self.left -= 1;
        if self.offers.is_some_and(|every| rng.once_in(every)) {
            return offers::offer(rng, state);
        }
        match rng.below(40) {
            0 => return Call::Look,
            1 | 2 => return Call::Sets,
            3 | 4 => return Call::Lag { lane: any_lane(rng, state) },
            5 if rng.once_in(2) => return Call::Restart,
            6 => return self.faulty_put(rng, state),
            _ => {}
        }
        match self.mood {
            Mood::Burst => self.put_to_favourite(rng, state),
            Mood::Drain => Call::Take,
            Mood::Steady => self.steady(rng, state),
            Mood::Sparse if state.holding().next().is_some() => Call::Take,
            Mood::Sparse => self.put_to_favourite(rng, state),
            Mood::Mixed if rng.once_in(2) => Call::Take,
            Mood::Mixed => self.put_to_any(rng, state),
            Mood::Flood => self.put(rng, state, self.favourites[0]),
            Mood::Quiet => self.quiet(rng, state),
            Mood::Late => self.late(rng, state),
        }
    }

    fn turn(&mut self, rng: &mut Rng, state: &State) {
        // A page that waits should come into force now and then.
        let settles = state.page.is_some() && rng.once_in(3);
        self.mood = if settles { Mood::Drain } else { rng.pick(MOODS) };
        self.left = match self.mood {
            Mood::Late => rng.between(100, 800),
            _ if settles => state.lanes.iter().map(|lane| lane.waiting.len() as u64).sum::<u64>() + 8,
            _ if rng.once_in(3) => rng.between(1, 8),
            _ => rng.between(1, 160),
        };
        self.lengths = match rng.below(7) {
            6 => Lengths::Ends,
            0 => Lengths::One,
            1 => Lengths::Longest,
            2 => Lengths::Same(rng.between(1, 64)),
            3 => Lengths::Powers,
            _ => Lengths::Any,
        };
        let count = rng.between(1, state.lanes.len().min(6) as u64);
        self.favourites = (0..count).map(|_| own_lane(rng, state)).collect();
        // One train floods its lane; two are compared best; all eight fill it.
        let trains = rng.pick(&[1, 2, 2, 3, 8]);
        self.trains = (0..trains).map(|_| rng.below(TRAINS.into()) as u8).collect();
        if trains == 8 {
            self.trains = (0..TRAINS).collect();
        }
    }

    fn steady(&mut self, rng: &mut Rng, state: &State) -> Call {
        if let Some(Answer::Taken(taken)) = self.last {
            // Mostly the train that was served; without it trains run empty and start again.
            let train = (!rng.once_in(6)).then_some(taken.train);
            return self.put_for(rng, state, taken.lane, train);
        }
        let deep = self.left % 2 == 0;
        let room = |lane: &&Lane| {
            let most = match (deep, lane.plan.shared) {
                (false, false) => 2,
                (false, true) => 12,
                (true, false) => DEPTH,
                (true, true) => TRAIN_DEPTH * self.trains.len(),
            };
            lane.waiting.len() < most
        };
        match state.lanes.iter().find(room) {
            Some(lane) if !rng.once_in(8) => self.put(rng, state, lane.plan.number),
            _ => Call::Take,
        }
    }

    fn quiet(&mut self, rng: &mut Rng, state: &State) -> Call {
        let quiet = self.favourites[0];
        if rng.once_in(16) {
            return self.put(rng, state, quiet);
        }
        if rng.once_in(2) {
            return Call::Take;
        }
        let busy = own_lane(rng, state);
        if busy == quiet {
            Call::Take
        } else {
            self.put(rng, state, busy)
        }
    }

    fn late(&mut self, rng: &mut Rng, state: &State) -> Call {
        if rng.once_in(8) {
            return Call::Sets;
        }
        let slot = state.lanes.iter().map(|lane| lane.slot()).max().expect("a setup has a lane");
        let late_in_slot = state.clock % slot >= slot - slot / 8;
        if late_in_slot {
            if let Some(lane) = state.lanes.iter().find(|lane| lane.slot() == slot && !lane.holds()) {
                let (lane, length) = (lane.plan.number, u64::from(lane.plan.longest));
                return self.call(rng, state, lane, None, length);
            }
        }
        let low = state.lanes.iter().find(|lane| lane.slot() < slot && lane.waiting.len() < 2);
        match low {
            Some(lane) => self.put(rng, state, lane.plan.number),
            None if state.holding().next().is_none() => self.put_to_any(rng, state),
            None => Call::Take,
        }
    }

    fn put_to_favourite(&mut self, rng: &mut Rng, state: &State) -> Call {
        let lane = rng.pick(&self.favourites);
        self.put(rng, state, lane)
    }

    fn put_to_any(&mut self, rng: &mut Rng, state: &State) -> Call {
        let lane = own_lane(rng, state);
        self.put(rng, state, lane)
    }

    fn put(&mut self, rng: &mut Rng, state: &State, lane: u8) -> Call {
        self.put_for(rng, state, lane, None)
    }

    /// A put for this train, or for one that the caller likes.
    fn put_for(&mut self, rng: &mut Rng, state: &State, lane: u8, train: Option<u8>) -> Call {
        // Another setup may be in force since the mood began.
        let lane = state.lane(lane).map_or_else(|| own_lane(rng, state), |lane| lane.plan.number);
        let longest = u64::from(state.lane(lane).expect("a lane of the setup").plan.longest);
        let length = match self.lengths {
            Lengths::One => 1,
            Lengths::Longest => longest - rng.below(2),
            Lengths::Same(length) => length,
            Lengths::Powers => rng.pick(&[1, 16, 32, 64, 128, 256, 512, 1_024]).min(longest),
            Lengths::Ends => rng.pick(&[1, longest]),
            Lengths::Any => rng.between(1, longest),
        };
        self.call(rng, state, lane, train, length)
    }

    /// A put with its train; train 0 now and then without saying it.
    fn call(&mut self, rng: &mut Rng, state: &State, lane: u8, train: Option<u8>, length: u64) -> Call {
        let mark = self.mark();
        let train = match train {
            _ if !state.shared(lane) => 0,
            Some(train) => train,
            None => rng.pick(&self.trains),
        };
        if train == 0 && !rng.once_in(4) {
            Call::Put { lane, mark, length }
        } else {
            Call::PutTrain { lane, train, mark, length }
        }
    }

    /// A put that is refused, or would be but for the other refusal that it also meets.
    fn faulty_put(&mut self, rng: &mut Rng, state: &State) -> Call {
        let lane = any_lane(rng, state);
        let longest = state.lane(lane).map_or(1_500, |lane| u64::from(lane.plan.longest));
        let edges = [0, 0, 1, longest, longest + 1, longest + 1, 65_535, 65_536 + longest, 1 << 32, u64::MAX];
        let (mark, length) = (self.mark(), rng.pick(&edges));
        let any = rng.byte();
        match rng.below(3) {
            0 => Call::Put { lane, mark, length },
            _ => {
                let train = rng.pick(&[0, 1, 7, 7, 8, 8, 9, 15, 16, 128, 255, any]);
                Call::PutTrain { lane, train, mark, length }
            }
        }
    }

    fn mark(&mut self) -> u32 {
        if !self.same_marks {
            self.mark = self.mark.wrapping_add(1);
        }
        self.mark
    }
}

fn own_lane(rng: &mut Rng, state: &State) -> u8 {
    state.lanes[rng.index(state.lanes.len())].plan.number
}

/// Mostly a lane of the setup; else any number, 64 to 255 too.
fn any_lane(rng: &mut Rng, state: &State) -> u8 {
    match rng.below(8) {
        0 => rng.byte(),
        1 => rng.pick(&[0, 63, 64, 65, 127, 128, 255]),
        2 => rng.below(64) as u8,
        _ => own_lane(rng, state),
    }
}
