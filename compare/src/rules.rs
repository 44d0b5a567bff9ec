//! The calls (docs/RULES.md, R2 and R3), worked plainly over all lanes: no group lists, no links, no stored sets.
//!
//! A lane keeps its S, R and F as they were worked out when it got its S, and the number of that event, which
//! orders lanes by who was given its S first.

mod back;
mod offers;
mod reads;
mod waiting;

pub use back::taken_off;
pub use waiting::{Train, Trains, Waiting};

use crate::calls::{Answer, Call, Taken};
use crate::numbers::{refusal, *};
use crate::pages::Page;
use crate::setup::{LanePlan, Setup};

#[derive(Clone, Copy, Debug, PartialEq, Eq)]
pub struct Record {
    pub mark: u32,
    pub length: u64,
}

#[derive(Clone, Debug, PartialEq, Eq)]
pub struct Lane {
    pub plan: LanePlan,
    /// c: clock units per byte of this lane.
    pub units_per_byte: i128,
    /// R1.10
    pub group: u32,
    pub waiting: Waiting,
    /// S and R, of no meaning while the lane is idle.
    pub start: i128,
    pub rounded_start: i128,
    /// F, which an idle lane keeps.
    pub finish: i128,
    /// The number of the event that gave the lane its present S.
    pub since: u64,
}

impl Lane {
    fn fresh(plan: LanePlan, framing: u8) -> Lane {
        let weight = i128::from(plan.weight);
        let units_per_byte = (UNITS_OF_A_FULL_LINE + weight - 1) / weight;
        let most = charged(plan.longest.into(), framing) * units_per_byte;
        // The least i with 2^i at least this.
        let group = i128::BITS - (most.max(1) - 1).leading_zeros();
        let waiting = Waiting::none(plan.shared);
        Lane { plan, units_per_byte, group, waiting, start: 0, rounded_start: 0, finish: 0, since: 0 }
    }

    /// A lane that holds nothing, with this F.
    pub fn idle(plan: LanePlan, framing: u8, finish: i128) -> Lane {
        Lane { finish, ..Lane::fresh(plan, framing) }
    }

    /// A lane of any origin; `word` is its S while it holds records, and its F while it is idle.
    pub fn of(plan: LanePlan, framing: u8, waiting: Waiting, word: i128, since: u64) -> Lane {
        let mut lane = Lane { waiting, ..Lane::fresh(plan, framing) };
        if lane.holds() {
            lane.begin(word, since, framing);
        } else {
            lane.finish = word;
        }
        lane
    }

    pub fn slot(&self) -> i128 {
        1 << self.group
    }

    pub fn holds(&self) -> bool {
        !self.waiting.is_empty()
    }

    /// A time, which is never below 0, rounded down to a multiple of the slot.
    fn rounded(&self, time: i128) -> i128 {
        time >> self.group << self.group
    }

    /// What orders lanes of a group with the same R: who got its present S earliest.
    pub fn turn(&self) -> (u32, i128, u64, u8) {
        (self.group, self.rounded_start, self.since, self.plan.number)
    }

    pub fn rounded_finish(&self) -> i128 {
        self.rounded_start + 2 * self.slot()
    }

    /// R2.6
    pub fn eligible(&self, clock: i128) -> bool {
        self.holds() && self.rounded_start <= clock
    }

    /// A new S for the lane's first record, and the R and F that follow from it.
    fn begin(&mut self, start: i128, event: u64, framing: u8) {
        let (_, first) = self.waiting.first().expect("a lane that gets an S holds a record");
        self.start = start;
        self.rounded_start = self.rounded(start);
        self.finish = start + charged(first.length, framing) * self.units_per_byte;
        self.since = event;
    }
}

/// A table's contents: the setup's framing number and lanes by rising number, the clock V, and what is kept of settings pages.
#[derive(Clone, Debug, PartialEq, Eq)]
pub struct State {
    pub clock: i128,
    pub framing: u8,
    pub lanes: Vec<Lane>,
    /// What was taken off the clock so far: V and this make the endless clock.
    pub back: i128,
    /// The edition last taken, 0 before any.
    pub edition: u16,
    /// The page that waits.
    pub page: Option<Page>,
    events: u64,
}

impl State {
    /// R2.4
    pub fn fresh(setup: &Setup) -> State {
        let lanes = setup.lanes.iter().map(|plan| Lane::fresh(*plan, setup.framing)).collect();
        State { clock: 0, framing: setup.framing, lanes, back: 0, edition: 0, page: None, events: 0 }
    }

    /// Contents of any origin.
    pub fn of(clock: i128, framing: u8, lanes: Vec<Lane>, back: i128) -> State {
        let events = lanes.iter().map(|lane| lane.since).max().unwrap_or(0);
        State { clock, framing, lanes, back, edition: 0, page: None, events }
    }

    /// The same contents, but for the turns of lanes that no call compares: a tie is between lanes of one group with the same R.
    pub fn alike(&self, other: &State) -> bool {
        fn lane(lane: &Lane) -> impl PartialEq + '_ {
            let start = lane.holds().then_some((lane.start, lane.rounded_start));
            (lane.plan, lane.units_per_byte, lane.group, &lane.waiting, lane.finish, start)
        }
        (self.clock, self.framing) == (other.clock, other.framing)
            && self.lanes.iter().map(lane).eq(other.lanes.iter().map(lane))
            && self.turns() == other.turns()
            && self.edition == other.edition
            && self.page.as_ref().map(Page::means) == other.page.as_ref().map(Page::means)
    }

    /// The lanes that hold records: by group and R, and where those tie, the one first that got its present S earliest.
    pub fn turns(&self) -> Vec<u8> {
        let mut turns: Vec<_> = self.holding().map(Lane::turn).collect();
        turns.sort_unstable();
        turns.into_iter().map(|(.., number)| number).collect()
    }

    pub fn lane(&self, number: u8) -> Option<&Lane> {
        self.lanes.iter().find(|lane| lane.plan.number == number)
    }

    pub fn holding(&self) -> impl Iterator<Item = &Lane> {
        self.lanes.iter().filter(|lane| lane.holds())
    }

    fn place(&self, number: u8) -> Result<usize, u8> {
        self.lanes.iter().position(|lane| lane.plan.number == number).ok_or(refusal::NO_SUCH_LANE)
    }

    fn event(&mut self) -> u64 {
        self.events += 1;
        self.events
    }

    /// R10.3: of train 0.
    pub fn put(&mut self, number: u8, mark: u32, length: u64) -> Result<u64, u8> {
        self.put_train(number, 0, mark, length)
    }

    /// Answers how many records of the train the lane held before (R3.9). A put that is not refused takes a clock that is far on back first
    /// (h).
    pub fn put_train(&mut self, number: u8, train: u8, mark: u32, length: u64) -> Result<u64, u8> {
        self.accepts(number, train, length)?;
        self.lower(taken_off(self.clock));
        self.put_endless(number, train, mark, length)
    }

    /// Whether a put is refused: by 11, 70, 12, then 13 or 71.
    pub fn accepts(&self, number: u8, train: u8, length: u64) -> Result<(), u8> {
        let lane = &self.lanes[self.place(number)?];
        lane.waiting.has_train(train)?;
        if length == 0 || length > u64::from(lane.plan.longest) {
            return Err(refusal::LENGTH);
        }
        lane.waiting.has_room(train)
    }

    /// A put by an endless clock, which is never taken back.
    pub fn put_endless(&mut self, number: u8, train: u8, mark: u32, length: u64) -> Result<u64, u8> {
        self.accepts(number, train, length)?;
        let at = self.place(number)?;
        let lane = &self.lanes[at];
        let was_idle = !lane.holds();
        let ahead = lane.waiting.queue(train).expect("a train that there is").len() as u64;
        let (event, framing) = (self.event(), self.framing);
        let lane = &mut self.lanes[at];
        lane.waiting.put(train, Record { mark, length }, lane.plan.longest.into());
        if was_idle {
            lane.begin(lane.finish.max(self.clock), event, framing);
        }
        // R3.8
        let rounded_start = self.lanes[at].rounded_start;
        if self.holding().count() == 1 && self.clock < rounded_start {
            self.clock = rounded_start;
        }
        Ok(ahead)
    }

    /// R3.10: by rounded finish, group, and who was given its S first. Nothing if no lane is eligible.
    pub fn chosen(&self) -> Option<&Lane> {
        self.lanes
            .iter()
            .filter(|lane| lane.eligible(self.clock))
            .min_by_key(|lane| (lane.rounded_finish(), lane.group, lane.since))
    }

    pub fn any_eligible(&self) -> bool {
        self.lanes.iter().any(|lane| lane.eligible(self.clock))
    }

    pub fn look(&self) -> Result<Taken, u8> {
        let lane = self.chosen().ok_or(refusal::NOTHING_HELD)?;
        let (train, first) = lane.waiting.first().expect("an eligible lane holds a record");
        Ok(Taken { lane: lane.plan.number, train, mark: first.mark, length: first.length })
    }

    pub fn take(&mut self) -> Result<Taken, u8> {
        let taken = self.look()?;
        let at = self.place(taken.lane)?;
        let (event, framing) = (self.event(), self.framing);
        let lane = &mut self.lanes[at];
        lane.waiting.hand_out(lane.plan.longest.into());
        self.clock += UNITS_PER_BYTE_SENT * charged(taken.length, framing);
        if lane.holds() {
            lane.begin(lane.finish, event, framing);
        }
        // R3.14
        if !self.any_eligible() {
            if let Some(least) = self.holding().map(|lane| lane.rounded_start).min() {
                self.clock = least;
            }
        }
        self.settle();
        Ok(taken)
    }

    /// R3.19; the edition stays.
    pub fn restart(&mut self) -> Result<(), u8> {
        if self.holding().next().is_some() {
            return Err(refusal::STILL_HELD);
        }
        let lanes = self.lanes.iter().map(|lane| lane.plan).collect();
        // A table has no format, and none is asked of it: each lane's longest is there.
        let setup = Setup { format: *FORMATS.end(), framing: self.framing, lanes };
        *self = State { edition: self.edition, ..State::fresh(&setup) };
        Ok(())
    }

    /// Whether a lane of the setup is shared.
    pub fn shared(&self, number: u8) -> bool {
        self.lane(number).is_some_and(|lane| lane.plan.shared)
    }

    pub fn answer(&mut self, call: &Call) -> Answer {
        if let Some(answer) = self.told(call) {
            return answer;
        }
        let answer = match call {
            Call::Put { lane, mark, length } => self.put(*lane, *mark, *length).map(Answer::Put),
            Call::PutTrain { lane, train, mark, length } => {
                self.put_train(*lane, *train, *mark, *length).map(Answer::Put)
            }
            Call::Take => self.take().map(Answer::Taken),
            Call::Restart => self.restart().map(|()| Answer::Restarted),
            Call::Offer(page) => Ok(self.offer(page)),
            Call::Look | Call::Sets | Call::Lag { .. } => unreachable!("it only reads"),
        };
        answer.unwrap_or_else(Answer::No)
    }
}
