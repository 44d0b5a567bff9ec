//! A table read and written, over what tells one layout from another: today's ([`NOW`](super::NOW)) and the one before it ([`THEN`](super::old::THEN)).

use super::{clock_word, part, present, ring, set_word, setting, setting_of, trains, word, Clause, Reading};
use super::{CLOCK, FRAMING_WORD, PRESENT, SHARED_BIT};
use crate::numbers::*;
use crate::rules::{Lane, Record, State, Waiting};
use crate::setup::LanePlan;
use crate::slots;

pub struct Form {
    /// A table's fixed size in bytes.
    pub size: usize,
    /// The places of a lane's ring. The ring's word is the first place + this times the number of records.
    pub depth: u64,
    /// The word that holds that number too, if there is one. Then every place of a lane that holds records has a length within the lane's numbers.
    pub depth_word: Option<usize>,
    /// Whether a setting's top bit says that trains share the lane; else it is c's.
    pub trains: bool,
    /// Whether c and the group of an idle lane are those of its setting too; else they mean nothing in its word.
    pub idle_paced: bool,
    /// Whether there is a page's part.
    pub pages: bool,
    /// V of a good table is below this.
    pub clock_end: i128,
    /// The record at a place of a lane's ring; places are counted on past the ring's end.
    pub record: fn(&[u8], u8, u64) -> Record,
    pub set_record: fn(&mut [u8], u8, u64, Record),
    /// The words in which it lies.
    pub words_of: fn(u8, u64) -> Vec<usize>,
}

impl Form {
    /// A lane's first place and its number of records.
    pub fn ring(&self, bytes: &[u8], lane: u8) -> (u64, u64) {
        let word = word(bytes, ring(lane));
        (word % self.depth, word / self.depth)
    }

    /// The places at which a holding lane has records, as bits.
    fn taken(&self, bytes: &[u8], lane: u8, shared: bool) -> u64 {
        let places = |places: u64, place: u64| places | 1 << place;
        if shared {
            let of_train = |train: u8| {
                let number = trains::number(bytes, lane, train);
                let count = trains::count_of(number);
                (0..count).map(move |place| trains::place_of(train, trains::first_of(number) + place))
            };
            return (0..TRAINS).flat_map(of_train).fold(0, places);
        }
        let (first, count) = self.ring(bytes, lane);
        (0..count.min(self.depth)).map(|place| (first + place) % self.depth).fold(0, places)
    }

    pub fn read(&self, bytes: &[u8]) -> Reading {
        let mut reading = Reading { broken: vec![], state: None };
        if bytes.len() < self.size {
            reading.breaks(Clause::Long, true);
            return reading;
        }
        reading.breaks(Clause::Depth, self.depth_word.is_some_and(|at| word(bytes, at) != self.depth));
        // Where the number is none that h can be, the other clauses go by the nearest to its low bits.
        let framing = (word(bytes, FRAMING_WORD) % 128).min(u64::from(*FRAMING.end())) as u8;
        reading.breaks(Clause::Framing, word(bytes, FRAMING_WORD) > u64::from(*FRAMING.end()));
        let order: Vec<u8> = slots::standing(bytes).into_iter().map(|(.., lane)| lane).collect();
        let lanes: Option<Vec<Lane>> =
            present(bytes).map(|lane| self.lane(bytes, lane, framing, &order, &mut reading)).collect();
        let Some(lanes) = lanes else { return reading };
        let clock = i128::from(word(bytes, CLOCK));
        let weights: u32 = lanes.iter().map(|lane| u32::from(lane.plan.weight)).sum();
        reading.breaks(Clause::Lanes, lanes.is_empty());
        reading.breaks(Clause::WeightSum, weights > WEIGHT_SUM);
        reading.breaks(Clause::Clock, clock >= self.clock_end);
        for lane in &lanes {
            let ahead = clock + 2 * lane.slot();
            if lane.holds() {
                reading.breaks(Clause::StartAhead, lane.start >= ahead);
                let behind = clock - 2 * lane.slot() - margin(framing);
                reading.breaks(Clause::StartBehind, lane.rounded_start <= behind);
            } else {
                reading.breaks(Clause::FinishAhead, lane.finish >= ahead);
            }
        }
        let held = lanes.iter().any(|lane| lane.holds());
        let eligible = lanes.iter().any(|lane| lane.eligible(clock));
        reading.breaks(Clause::Eligible, held && !eligible);
        for clause in slots::broken(bytes, &lanes) {
            reading.breaks(clause, true);
        }
        let mut state = State::of(clock, framing, lanes, i128::from(word(bytes, slots::BACK)));
        if self.pages {
            (state.edition, state.page) = part::read(bytes, held, &mut reading);
        }
        reading.state = Some(state);
        reading
    }

    /// A present lane, or nothing if its words are no lane's at all.
    fn lane(
        &self,
        bytes: &[u8],
        number: u8,
        framing: u8,
        order: &[u8],
        reading: &mut Reading,
    ) -> Option<Lane> {
        let setting = word(bytes, setting(number));
        let shared = self.trains && setting & SHARED_BIT != 0;
        let plan = LanePlan { number, weight: (setting >> 16) as u16, longest: setting as u16, shared };
        reading.breaks(Clause::Weight, !WEIGHT.contains(&plan.weight));
        reading.breaks(Clause::Longest, !LONGEST.contains(&plan.longest));
        let (first, count) = self.ring(bytes, number);
        reading.breaks(Clause::Records, !shared && count > self.depth);
        if plan.weight == 0 {
            return None;
        }
        let fits = |record: &Record| (1..=u64::from(plan.longest)).contains(&record.length);
        let waiting = if shared && count > 0 {
            let trains = trains::read(self, bytes, number, plan.longest.into(), count, reading);
            Waiting::Shared(trains?)
        } else if shared || count > self.depth {
            Waiting::none(shared)
        } else {
            Waiting::Own((0..count).map(|place| (self.record)(bytes, number, first + place)).collect())
        };
        if !shared && count > self.depth {
            return None;
        }
        let held = || waiting.queues().flat_map(|(_, queue)| queue);
        reading.breaks(Clause::Length, !held().all(fits));
        let taken = self.taken(bytes, number, shared);
        let mut free = (0..self.depth).filter(|place| taken >> place & 1 == 0);
        let asked = self.depth_word.is_some() && count > 0;
        reading
            .breaks(Clause::Places, asked && !free.all(|place| fits(&(self.record)(bytes, number, place))));
        let turn = order.iter().position(|lane| *lane == number);
        let (time, since) = (i128::from(word(bytes, clock_word(number))), turn.map_or(0, |at| at as u64));
        let lane = Lane::of(plan, framing, waiting, time, since);
        if self.idle_paced || count > 0 {
            let (group, units_per_byte) = self.pace(setting);
            reading.breaks(Clause::UnitsPerByte, i128::from(units_per_byte) != lane.units_per_byte);
            reading.breaks(Clause::Group, group != u64::from(lane.group));
        }
        Some(lane)
    }

    /// Writes contents: the words that mean something, and no other. A ring begins at the place that the bytes have for it. Where every place of a
    /// holding lane must fit, the lengths of the others go by what the bytes have for them.
    pub fn write(&self, state: &State, bytes: &mut [u8]) {
        let number = |value: i128| u64::try_from(value).expect("a clock word");
        set_word(bytes, CLOCK, number(state.clock));
        set_word(bytes, FRAMING_WORD, state.framing.into());
        set_word(bytes, PRESENT, state.lanes.iter().map(|lane| 1 << lane.plan.number).sum());
        if let Some(at) = self.depth_word {
            set_word(bytes, at, self.depth);
        }
        slots::write(state, bytes);
        if self.pages {
            part::write(state.edition, state.page.as_ref(), bytes);
        }
        for lane in &state.lanes {
            let (at, plan) = (lane.plan.number, lane.plan);
            let (group, units) = if self.idle_paced || lane.holds() {
                (lane.group.into(), number(lane.units_per_byte))
            } else {
                self.pace(word(bytes, setting(at)))
            };
            let numbers = setting_of(plan.longest.into(), plan.weight.into(), group, units, plan.shared);
            set_word(bytes, setting(at), numbers);
            set_word(bytes, clock_word(at), number(if lane.holds() { lane.start } else { lane.finish }));
            self.write_queue(lane, bytes);
        }
    }

    /// The group and c that stand in a setting word.
    fn pace(&self, setting: u64) -> (u64, u64) {
        let units_per_byte = if self.trains { (setting & !SHARED_BIT) >> 40 } else { setting >> 40 };
        (setting >> 32 & 0xFF, units_per_byte)
    }

    fn write_queue(&self, lane: &Lane, bytes: &mut [u8]) {
        let (at, count) = (lane.plan.number, lane.waiting.len() as u64);
        let (first, _) = self.ring(bytes, at);
        set_word(bytes, ring(at), first + self.depth * count);
        let queue = match &lane.waiting {
            Waiting::Own(queue) => queue,
            // The trains' words of an idle lane mean nothing.
            Waiting::Shared(_) if count == 0 => return,
            Waiting::Shared(trains) => return trains::write(self, lane, trains, bytes),
        };
        for (place, held) in (first..).zip(queue) {
            (self.set_record)(bytes, at, place, *held);
        }
        if self.depth_word.is_none() || !lane.holds() {
            return;
        }
        (first + count..first + self.depth).for_each(|place| self.fit(bytes, lane, place));
    }

    /// The length of a place without a record, brought within the lane's numbers.
    pub fn fit(&self, bytes: &mut [u8], lane: &Lane, place: u64) {
        let free = (self.record)(bytes, lane.plan.number, place);
        let length = (free.length - 1) % u64::from(lane.plan.longest.max(1)) + 1;
        (self.set_record)(bytes, lane.plan.number, place, Record { length, ..free });
    }
}
