//! The stand-in's scheduler. It is built otherwise than the reference: 64-bit numbers, the choice goes through the
//! group sets, and ties by a list of lanes, the one with the oldest S first.

use super::junction::Junction;
use super::reader::Plan;
use super::slips::Slip;
use crate::calls::Taken;

pub struct Flow {
    pub weight: u64,
    pub longest: u64,
    cost: u64,
    group: u32,
    start: u64,
    finish: u64,
    queue: Junction,
}

impl Flow {
    fn round(&self) -> u64 {
        self.start >> self.group << self.group
    }
}

pub struct Engine {
    pub(super) slip: Slip,
    pub(super) clock: u64,
    /// Bytes that the line adds to each record.
    pub(super) framing: u64,
    pub(super) flows: Vec<Option<Flow>>,
    turns: Vec<usize>,
    /// The edition last taken, and the page that waits.
    pub(super) edition: u64,
    pub(super) page: Option<(u64, Plan)>,
}

impl Engine {
    pub fn new(plan: &Plan, slip: Slip) -> Engine {
        let mut flows: Vec<Option<Flow>> = (0..64).map(|_| None).collect();
        for &(number, weight, longest, shared) in &plan.lanes {
            let cost = if slip == Slip::CostRoundedDown {
                (1 << 20) / weight
            } else {
                (1_u64 << 20).div_ceil(weight)
            };
            let framing = if slip == Slip::FramingNotInGroup { 0 } else { plan.framing };
            let most = (longest + framing) * cost + u64::from(slip == Slip::GroupTooHigh);
            let group = most.next_power_of_two().trailing_zeros();
            let queue = Junction::new(shared, longest, plan.framing, slip);
            flows[number] = Some(Flow { weight, longest, cost, group, start: 0, finish: 0, queue });
        }
        Engine { slip, clock: 0, framing: plan.framing, flows, turns: vec![], edition: 0, page: None }
    }

    pub(super) fn held(&self) -> impl Iterator<Item = (usize, &Flow)> {
        let flows = self.flows.iter().enumerate();
        flows
            .filter_map(|(n, flow)| flow.as_ref().map(|flow| (n, flow)))
            .filter(|(_, flow)| !flow.queue.is_empty())
    }

    fn may_go(&self, round: u64) -> bool {
        if self.slip == Slip::EligibleBelowClock {
            round < self.clock
        } else {
            round <= self.clock
        }
    }

    fn renew(&mut self, lane: usize) {
        self.turns.retain(|&other| other != lane);
        self.turns.push(lane);
    }

    fn begin(&mut self, lane: usize, start: u64) {
        let slip = self.slip;
        let framing = if slip == Slip::FramingNotInFinish { 0 } else { self.framing };
        let flow = self.flows[lane].as_mut().expect("only lanes of the setup begin");
        let before = flow.round();
        flow.start = start;
        flow.finish = start + (flow.queue.first().2 + framing) * flow.cost;
        let keeps = slip == Slip::SameRoundKeepsTurn && flow.round() == before && self.turns.contains(&lane);
        if !keeps {
            self.renew(lane);
        }
    }

    /// A clock at 2^61 or more goes back to 2^33 and at most 2^31 more.
    fn take_back(&mut self) {
        if self.clock >> 61 == 0 {
            return;
        }
        let step = if self.slip == Slip::BackByHalfUnits { 30 } else { 31 };
        let off = (self.clock - (1 << 33)) >> step << step;
        self.clock -= off;
        for flow in self.flows.iter_mut().flatten() {
            match (self.slip, flow.queue.is_empty()) {
                (Slip::BackOfClockAlone, _) => {}
                (Slip::BackLeavesIdleLanes, true) => {}
                (Slip::BackKeepsLowFinish, true) if flow.finish < off => {}
                (Slip::BackForgetsFinish, true) => flow.finish = 0,
                // With a slip a lane may lie further back.
                (Slip::BackLeavesFinish, false) => flow.start = flow.start.saturating_sub(off),
                (_, true) => flow.finish = flow.finish.saturating_sub(off),
                (_, false) => {
                    flow.start = flow.start.saturating_sub(off);
                    flow.finish = flow.finish.saturating_sub(off);
                }
            }
        }
    }

    /// With a slip a lane may not have been lowered, and is lifted again and again; past this it differs anyway.
    pub fn lift(&mut self, up: u64) {
        let lifted = |time: u64| (time + up).min(1 << 62);
        self.clock += up;
        for flow in self.flows.iter_mut().flatten() {
            flow.finish = lifted(flow.finish);
            if !flow.queue.is_empty() {
                flow.start = lifted(flow.start);
            }
        }
    }

    /// How many records of its train wait before this one.
    pub fn put(&mut self, lane: u8, train: u8, mark: u32, mut length: u64) -> Result<u64, u8> {
        if self.slip == Slip::PageComesWithPut {
            self.settle();
        }
        if self.slip == Slip::LengthCut {
            length &= 0xFFFF;
        }
        if self.slip == Slip::LengthBeforeLane && (length == 0 || length > 1_500) {
            return Err(12);
        }
        if self.slip == Slip::TrainBeforeLane && train > 7 {
            return Err(70);
        }
        let lane = usize::from(lane);
        let flow = self.flows.get_mut(lane).and_then(Option::as_mut).ok_or(11)?;
        let shared = flow.queue.shared;
        let trains = match (shared, self.slip) {
            (true, Slip::SevenTrains) => 7,
            (true, Slip::NineTrains) => 9,
            (true, _) => 8,
            (false, Slip::TrainNotAsked) => 255,
            (false, _) => 1,
        };
        let train_fails = train >= trains;
        if train_fails && self.slip != Slip::LengthBeforeTrain {
            return Err(70);
        }
        let train = if shared { train } else { 0 };
        let room = match (shared, self.slip) {
            (true, Slip::TrainRoomSeven) => 7,
            (true, Slip::TrainRoomNine) => 9,
            (true, Slip::TrainsShareRoom) => 64 + flow.queue.count(train) - flow.queue.len(),
            (true, _) => 8,
            (_, Slip::RoomForSixteen) => 16,
            (_, Slip::RoomForSixtyThree) => 63,
            (_, Slip::RoomForSixtyFive) => 65,
            _ => 64,
        };
        let full = flow.queue.count(train) >= room;
        let no_room = if shared && self.slip != Slip::FullAsThirteen { 71 } else { 13 };
        if full && self.slip == Slip::FullBeforeLength {
            return Err(no_room);
        }
        let compared =
            if self.slip == Slip::FramingInPut { length.saturating_add(self.framing) } else { length };
        if length == 0 || compared > flow.longest {
            return Err(12);
        }
        if train_fails {
            return Err(70);
        }
        if full {
            return Err(no_room);
        }
        if self.slip == Slip::FarIsRefused && self.clock >> 61 != 0 {
            return Err(14);
        }
        self.take_back();
        let flow = self.flows[lane].as_mut().expect("the lane is in the setup");
        flow.queue.push((train, mark, length));
        let ahead = match self.slip {
            Slip::CountsItself => flow.queue.count(train),
            Slip::TellsOnlyWhetherIdle => usize::from(flow.queue.count(train) > 1),
            Slip::CountsAllLanes => self.held().map(|(_, flow)| flow.queue.len()).sum::<usize>() - 1,
            Slip::CountsAllTrains => flow.queue.len() - 1,
            _ => flow.queue.count(train) - 1,
        } as u64;
        let flow = self.flows[lane].as_ref().expect("the lane is in the setup");
        let finish = if self.slip == Slip::ForgetsFinish { 0 } else { flow.finish };
        if flow.queue.len() > 1 {
            if self.slip == Slip::PutRenewsTurn {
                self.renew(lane);
            }
            return Ok(ahead);
        }
        self.begin(lane, finish.max(self.clock));
        if self.held().count() == 1 && self.slip != Slip::NoJumpOnPut {
            let flow = self.flows[lane].as_ref().expect("the lane is in the setup");
            let to = if self.slip == Slip::JumpToExactStart { flow.start } else { flow.round() };
            self.clock = self.clock.max(to);
        }
        Ok(ahead)
    }

    fn chosen(&self) -> Option<usize> {
        let turn = |lane: usize| self.turns.iter().position(|&other| other == lane).unwrap_or(0);
        if self.slip == Slip::ExactFinish {
            let may_go = self.held().filter(|(_, flow)| self.may_go(flow.round()));
            return may_go.min_by_key(|(n, flow)| (flow.finish, flow.group, turn(*n))).map(|(n, _)| n);
        }
        let [ready, ..] = self.sets();
        let in_group = self.held().filter(|(_, flow)| ready != 0 && flow.group == ready.trailing_zeros());
        let best = in_group.min_by_key(|&(n, flow)| {
            let tie = match self.slip {
                Slip::TiesToLaterLane => self.turns.len() - turn(n),
                Slip::TiesToLowestLane => n,
                _ => turn(n),
            };
            (flow.round(), tie)
        });
        best.map(|(n, _)| n)
    }

    pub fn look(&self) -> Result<Taken, u8> {
        let lane = self.chosen().ok_or(16)?;
        let (train, mark, length) =
            self.flows[lane].as_ref().expect("the chosen lane is in the setup").queue.first();
        let told = if self.slip == Slip::FramingInAnswer { length + self.framing } else { length };
        let train = if self.slip == Slip::TrainNotTold { 0 } else { train };
        Ok(Taken { lane: lane as u8, train, mark, length: told })
    }

    /// V becomes the least R if none of the held lanes may go.
    fn jump(&mut self, leave_out: Option<usize>) {
        let rounds = self.held().filter(|(n, _)| Some(*n) != leave_out).map(|(_, flow)| flow.round());
        if let Some(least) = rounds.min() {
            self.clock = self.clock.max(least);
        }
    }

    pub fn take(&mut self) -> Result<Taken, u8> {
        let taken = self.look()?;
        let lane = usize::from(taken.lane);
        let flow = self.flows[lane].as_mut().expect("the chosen lane is in the setup");
        flow.queue.pop(self.framing);
        let charged = match self.slip {
            Slip::ChargesLongest => flow.longest + self.framing,
            Slip::FramingNotInClock => taken.length,
            _ => taken.length + self.framing,
        };
        let (finish, holds) = (flow.finish, !flow.queue.is_empty());
        self.clock += 1_024 * charged;
        match self.slip {
            Slip::ClockBeforeNewStart => self.jump(None),
            Slip::ClockWithoutServedLane => self.jump(Some(lane)),
            _ => {}
        }
        if holds {
            let start =
                if self.slip == Slip::HoldingLaneTakesClock { finish.max(self.clock) } else { finish };
            self.begin(lane, start);
        } else {
            self.turns.retain(|&other| other != lane);
        }
        if self.slip != Slip::ClockBeforeNewStart {
            self.jump(None);
        }
        if !matches!(self.slip, Slip::PageWaitsOn | Slip::PageComesWithPut) {
            self.settle();
        }
        Ok(taken)
    }

    pub fn shared(&self, lane: u8) -> bool {
        self.flows[usize::from(lane)].as_ref().is_some_and(|flow| flow.queue.shared)
    }

    pub fn sets(&self) -> [u64; 4] {
        let mut rounds: [Option<u64>; 40] = [None; 40];
        for (_, flow) in self.held() {
            let round = &mut rounds[flow.group as usize];
            *round = Some(round.map_or(flow.round(), |round| round.min(flow.round())));
        }
        let mut words = [0; 4];
        let mut least: Option<u64> = None;
        // From the highest group down: `least` is the least finish of the eligible groups above.
        for (group, round) in rounds.iter().enumerate().rev() {
            let Some(round) = *round else { continue };
            let due = round + (2 << group);
            let blocked = match self.slip {
                Slip::EqualFinishBlocks => least.is_some_and(|least| least <= due),
                _ => least.is_some_and(|least| least < due),
            };
            let eligible = self.may_go(round);
            words[usize::from(!eligible) + 2 * usize::from(blocked)] |= 1 << group;
            if eligible {
                least = Some(least.map_or(due, |least| least.min(due)));
            }
        }
        words
    }

    pub fn lag(&self, lane: u8) -> Result<i64, u8> {
        let flow = self.flows.get(usize::from(lane)).and_then(Option::as_ref).ok_or(11)?;
        let from = if !flow.queue.is_empty() {
            flow.start
        } else if self.slip == Slip::LagOfIdleFromFinish {
            flow.finish
        } else {
            flow.finish.max(self.clock)
        };
        Ok(self.clock.wrapping_sub(from) as i64)
    }

    pub fn restart(&mut self) -> Result<(), u8> {
        if self.held().next().is_some() && self.slip != Slip::RestartDropsRecords {
            return Err(15);
        }
        let flows = self.flows.iter().enumerate();
        let keeps = self.slip != Slip::RestartForgetsShared;
        let lanes = flows
            .filter_map(|(n, f)| f.as_ref().map(|f| (n, f.weight, f.longest, f.queue.shared && keeps)))
            .collect();
        let framing = if self.slip == Slip::RestartDropsFraming { 0 } else { self.framing };
        let clock = if self.slip == Slip::RestartKeepsClock { self.clock } else { 0 };
        let edition = if self.slip == Slip::RestartForgetsEdition { 0 } else { self.edition };
        *self = Engine { clock, edition, ..Engine::new(&Plan { format: 0, framing, lanes }, self.slip) };
        Ok(())
    }
}
