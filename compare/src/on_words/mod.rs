//! A unit to try the comparison of tables on: the plain rules over the words of docs/TABLE.md, read and written by [`layout`] alone, that can be told
//! to make one [`Lapse`].

mod lapses;

pub use lapses::{lapses, Lapse};

use crate::calls::{Answer, Taken};
use crate::fields::Fault;
use crate::layout::{self, part, trains, Clause, NOW, TABLE_SIZE};
use crate::numbers::*;
use crate::plans::words::plan;
use crate::rules::{taken_off, Lane, State, Train, Waiting};
use crate::session::{self, Run};
use crate::setup;
use crate::shown::{shown, Ask};
use crate::slots;
use crate::unit::Unit;

pub struct OnWords {
    pub lapse: Lapse,
}

impl OnWords {
    fn read(&self, table: &[u8]) -> Result<State, u8> {
        let reading = layout::read(table);
        if reading.broken.len() == 1 && self.passes(reading.broken[0], table) {
            return Err(refusal::NOTHING_HELD);
        }
        let state = reading.good().ok_or(refusal::NOT_GOOD)?;
        let refused = match self.lapse {
            Lapse::ClockStrict => state.clock >= CLOCK_END - 1,
            Lapse::ClockOld => state.clock >= OLD_CLOCK_END,
            Lapse::StartStrict => state.holding().any(|lane| lane.start >= state.clock + 2 * lane.slot() - 1),
            Lapse::BehindStrict => state
                .holding()
                .any(|lane| lane.rounded_start <= state.clock - 2 * lane.slot() - margin(state.framing) + 1),
            Lapse::BehindBare => {
                state.holding().any(|lane| lane.rounded_start <= state.clock - 2 * lane.slot() - margin(0))
            }
            Lapse::FramingStrict => state.framing == 64,
            Lapse::FinishStrict => {
                let mut idle = state.lanes.iter().filter(|lane| !lane.holds());
                idle.any(|lane| lane.finish >= state.clock + 2 * lane.slot() - 1)
            }
            Lapse::EligibleStrict => {
                let mut holding = state.holding().peekable();
                holding.peek().is_some() && !holding.any(|lane| lane.rounded_start < state.clock)
            }
            Lapse::RecordsStrict => {
                state.lanes.iter().any(|lane| !lane.plan.shared && lane.waiting.len() == DEPTH)
            }
            Lapse::TurnStrict
            | Lapse::TurnBelowStrict
            | Lapse::OthersStrict
            | Lapse::TrainRecordsStrict
            | Lapse::EmptyTrainRead
            | Lapse::IdleTrainsRead
            | Lapse::PlainTrainsRead
            | Lapse::SharedRingRead => state.lanes.iter().any(|lane| self.refuses_trains(table, lane)),
            Lapse::FreeWordRead => layout::word(table, 2) != 0,
            Lapse::KeptRead => table[part::END..TABLE_SIZE].iter().any(|byte| *byte != 0),
            Lapse::LastStrict => state.edition == u16::MAX,
            Lapse::AboveStrict => state.page.as_ref().is_some_and(|page| page.edition == state.edition + 1),
            Lapse::IdlePlanRead => plan(&table[part::PLAN..]).is_none(),
            Lapse::PageFormatRead => state.page.as_ref().is_some_and(|page| page.setup.format != 2),
            Lapse::IdlePlacesRead => {
                let over = |lane: &Lane, place: u64| {
                    (NOW.record)(table, lane.plan.number, place).length > lane.plan.longest.into()
                };
                let mut idle = state.lanes.iter().filter(|lane| !lane.holds());
                idle.any(|lane| (0..NOW.depth).any(|place| over(lane, place)))
            }
            _ => false,
        };
        if refused {
            Err(refusal::NOT_GOOD)
        } else {
            Ok(state)
        }
    }

    /// Whether a good lane's trains are refused.
    fn refuses_trains(&self, table: &[u8], lane: &Lane) -> bool {
        let numbers: Vec<u32> =
            (0..TRAINS).map(|train| trains::number(table, lane.plan.number, train)).collect();
        let meaningless = numbers.iter().any(|number| *number != 0);
        let Waiting::Shared(shared) = &lane.waiting else {
            return self.lapse == Lapse::PlainTrainsRead && meaningless;
        };
        let Some(turn) = shared.round.front().map(|train| &shared.trains[usize::from(*train)]) else {
            return self.lapse == Lapse::IdleTrainsRead && meaningless;
        };
        let waits = shared.round.iter().skip(1).map(|train| &shared.trains[usize::from(*train)]);
        let first = |train: &Train| train.queue[0].length;
        match self.lapse {
            Lapse::TurnStrict => turn.deficit == first(turn),
            Lapse::TurnBelowStrict => turn.deficit + 1 == 2 * u64::from(lane.plan.longest),
            Lapse::OthersStrict => waits.into_iter().any(|train| train.deficit + 1 == first(train)),
            Lapse::TrainRecordsStrict => shared.trains.iter().any(|train| train.queue.len() == TRAIN_DEPTH),
            Lapse::EmptyTrainRead => {
                numbers.iter().any(|number| trains::count_of(*number) == 0 && *number != 0)
            }
            Lapse::SharedRingRead => NOW.ring(table, lane.plan.number).0 != 0,
            _ => false,
        }
    }

    /// What is left wrong of the shared lanes that hold records.
    fn spoil_trains(&self, state: &State, before: &State, table: &mut [u8]) {
        for (lane, was) in state.lanes.iter().zip(&before.lanes) {
            let Waiting::Shared(trains) = &lane.waiting else { continue };
            let Some(turn) = trains.round.front().copied() else { continue };
            let at = lane.plan.number;
            match (self.lapse, &was.waiting) {
                (Lapse::RowNotKept, _) if was.waiting.len() > 1 => {
                    let count = was.waiting.len() as u64;
                    layout::set_word(table, layout::ring(at), NOW.depth * count);
                }
                (Lapse::DeficitAtChoice, _) if lane.waiting != was.waiting => {
                    let number = trains::number(table, at, turn);
                    let first = trains.trains[usize::from(turn)].queue[0].length as u32;
                    trains::set_number(table, at, turn, number - 128 * first);
                }
                (Lapse::RoundKept, Waiting::Shared(old)) if old.round.len() == trains.round.len() => {
                    layout::set_word(table, trains::round_word(at), trains::round_of(&old.round));
                }
                _ => {}
            }
        }
    }

    /// Whether a table that breaks one clause alone is taken for good.
    fn passes(&self, broken: Clause, table: &[u8]) -> bool {
        match self.lapse {
            Lapse::Untested(clause) => clause == broken,
            Lapse::StartModulo if broken == Clause::Starts => {
                // The slots of the starts that are stored: each list from there on is where it was.
                let stored = |group: &u32| layout::word(table, slots::start(*group)) >> group;
                let right = |group: &u32| {
                    let lanes = layout::read(table).state.into_iter().flat_map(|state| state.lanes);
                    let own = lanes.filter(|lane| lane.holds() && lane.group == *group);
                    own.map(|lane| (lane.rounded_start >> group) as u64).min()
                };
                slots::groups(table).iter().all(|group| {
                    layout::word(table, slots::start(*group)) % (1 << group) == 0
                        && right(group).is_some_and(|right| right % 32 == stored(group) % 32)
                })
            }
            Lapse::ListsAdded if broken == Clause::Lists => {
                let met = |sum: u64, lane: u8| sum.wrapping_add(1_u64.wrapping_shl(lane.into()));
                let standing = slots::standing(table).into_iter().map(|(.., lane)| lane);
                let state = layout::read(table).state;
                let held = state.iter().flat_map(|state| state.holding()).map(|lane| lane.plan.number);
                standing.fold(0, met) == held.fold(0, met)
            }
            _ => false,
        }
    }

    /// Where the lengths of the places without a record lie, and what is there: of the lanes that hold one record, if a put leaves them.
    fn free_lengths(&self, state: &State, table: &[u8]) -> Vec<(usize, [u8; 2])> {
        let mut free = vec![];
        for lane in state.holding().filter(|lane| self.lapse == Lapse::PlacesLeft && lane.waiting.len() == 1)
        {
            let (mut first, _) = NOW.ring(table, lane.plan.number);
            if let Waiting::Shared(shared) = &lane.waiting {
                let train = shared.round[0];
                let number = trains::number(table, lane.plan.number, train);
                first = trains::place_of(train, trains::first_of(number));
            }
            free.extend((1..NOW.depth).map(|place| {
                let at = layout::length_byte(lane.plan.number, first + place);
                (at, [table[at], table[at + 1]])
            }));
        }
        free
    }

    /// What a put does before it appends a record.
    fn take_back(&self, state: &mut State, lane: u8) -> Result<(), u8> {
        let clock = state.clock;
        if self.lapse == Lapse::SpentAsBefore && clock >= OLD_CLOCK_EDGE {
            return Err(14);
        }
        let down = |kept: i128, step: i128| (clock - kept) - (clock - kept) % step;
        let off = match self.lapse {
            _ if clock < CLOCK_FAR => 0,
            Lapse::BackStrict if clock == CLOCK_FAR => 0,
            Lapse::BackLate if clock < OLD_CLOCK_EDGE => 0,
            Lapse::BackByIdleAlone if state.lane(lane).is_some_and(Lane::holds) => 0,
            Lapse::BackByHalfUnits => down(CLOCK_KEPT, CLOCK_STEP / 2),
            Lapse::BackTooFar => down(CLOCK_KEPT / 2, CLOCK_STEP),
            Lapse::BackRoundedUp => down(CLOCK_KEPT - CLOCK_STEP + 1, CLOCK_STEP),
            _ => down(CLOCK_KEPT, CLOCK_STEP),
        };
        let before = state.lanes.clone();
        state.lower(off);
        for (at, (lane, was)) in state.lanes.iter_mut().zip(before).enumerate() {
            match self.lapse {
                Lapse::BackOfClockAlone => *lane = was,
                Lapse::BackLeavesFirstLane if at == 0 => *lane = was,
                Lapse::BackKeepsLowFinish if !lane.holds() && was.finish < off => lane.finish = was.finish,
                Lapse::BackForgetsFinish if !lane.holds() && off > 0 => lane.finish = 0,
                Lapse::BackTooFar => lane.start = lane.start.max(0),
                _ => {}
            }
        }
        Ok(())
    }

    fn change<T>(&self, table: &mut [u8], call: impl Fn(&mut State) -> Result<T, u8>) -> Result<T, u8> {
        let mut state = self.read(table).map_err(|number| {
            if self.lapse == Lapse::RefusalWrites && !table.is_empty() {
                table[0] ^= 1;
            }
            number
        })?;
        let (before, back, was) = (state.clock, state.back, state.clone());
        let answer = call(&mut state)?;
        if self.lapse == Lapse::ClockKept && state.holding().next().is_none() && state.clock > 0 {
            state.clock = before;
        }
        if self.lapse == Lapse::OrderLost {
            state.lanes.iter_mut().for_each(|lane| lane.since = lane.plan.number.into());
        }
        let free = self.free_lengths(&state, table);
        layout::write(&state, table);
        for (at, length) in free {
            table[at..at + 2].copy_from_slice(&length);
        }
        self.spoil_trains(&state, &was, table);
        if self.lapse == Lapse::PageNotCleared && was.page.is_some() && state.page.is_none() {
            layout::set_word(table, part::NEW, state.edition.into());
        }
        let off = state.back - back;
        match self.lapse {
            Lapse::BackForgotten if off > 0 => layout::set_word(table, slots::BACK, back as u64),
            Lapse::BackGrows if off > 0 => layout::set_word(table, slots::BACK, state.back as u64),
            Lapse::BackLeavesStarts if off > 0 => {
                for at in slots::groups(table).into_iter().map(slots::start) {
                    layout::set_word(table, at, layout::word(table, at) + off as u64);
                }
            }
            _ => {}
        }
        if self.lapse == Lapse::RingTurned {
            if let Some(lane) = state.holding().find(|lane| !lane.plan.shared) {
                let at = layout::ring(lane.plan.number);
                layout::set_word(table, at, layout::word(table, at) ^ 1);
            }
        }
        Ok(answer)
    }
}

impl Unit for OnWords {
    fn table_size(&self) -> usize {
        TABLE_SIZE
    }

    fn documented_layout(&self) -> bool {
        true
    }

    fn make(&mut self, setup: &[u8], table: &mut [u8]) -> Result<u64, Fault> {
        if table.len() < TABLE_SIZE {
            return Err(Fault::at(refusal::TABLE_SHORT, 0));
        }
        let setup = setup::whole(setup)?;
        layout::write(&State::fresh(&setup), table);
        Ok(setup.lanes.len() as u64)
    }

    fn put(&mut self, table: &mut [u8], lane: u8, mark: u32, length: u64) -> Result<u64, u8> {
        self.put_train(table, lane, 0, mark, length)
    }

    fn put_train(
        &mut self,
        table: &mut [u8],
        lane: u8,
        train: u8,
        mark: u32,
        length: u64,
    ) -> Result<u64, u8> {
        let answer = self.change(table, |state| {
            state.accepts(lane, train, length)?;
            self.take_back(state, lane)?;
            state.put_endless(lane, train, mark, length)
        });
        if self.lapse == Lapse::BackByRefused && answer.is_err() && answer != Err(refusal::NOT_GOOD) {
            self.change(table, |state| {
                state.lower(taken_off(state.clock));
                Ok(())
            })?;
        }
        answer
    }

    fn take(&mut self, table: &mut [u8]) -> Result<Taken, u8> {
        self.change(table, |state| {
            let taken = state.take()?;
            if self.lapse == Lapse::BackByTake {
                state.lower(taken_off(state.clock));
            }
            Ok(taken)
        })
    }

    fn look(&mut self, table: &mut [u8]) -> Result<Taken, u8> {
        self.read(table)?.look()
    }

    fn sets(&mut self, table: &mut [u8]) -> Result<[u64; 4], u8> {
        Ok(self.read(table)?.sets())
    }

    fn lag(&mut self, table: &mut [u8], lane: u8) -> Result<i64, u8> {
        self.read(table)?.lag(lane)
    }

    fn restart(&mut self, table: &mut [u8]) -> Result<(), u8> {
        self.change(table, |state| {
            state.restart()?;
            if self.lapse == Lapse::RestartForgetsEdition {
                state.edition = 0;
            }
            Ok(())
        })
    }

    fn offer(&mut self, table: &mut [u8], page: &[u8]) -> Answer {
        let mut answer = Answer::InForce;
        let changed = self.read(table).and_then(|mut state| {
            answer = state.offer(page);
            let refused = answer.refused();
            if !refused || self.lapse == Lapse::RefusedOfferStays {
                self.change(table, |state| {
                    state.offer(page);
                    if let (true, [0x40, 0, 2, high, low, ..]) = (refused, page) {
                        state.edition = u16::from_be_bytes([*high, *low]).max(state.edition);
                    }
                    if let Some(page) = &mut state.page {
                        match self.lapse {
                            Lapse::PageFramingLost => page.setup.framing = 0,
                            Lapse::PageSharedLost => {
                                page.setup.lanes.iter_mut().for_each(|lane| lane.shared = false)
                            }
                            _ => {}
                        }
                    }
                    Ok(())
                })?;
            }
            Ok(())
        });
        changed.map_or_else(Answer::No, |()| answer)
    }

    fn show(&mut self, table: &mut [u8], ask: Ask) -> Option<Result<[u64; 4], u8>> {
        let state = match self.read(table) {
            Ok(state) => state,
            Err(_) if self.lapse == Lapse::BacklogUntested && matches!(ask, Ask::Backlog(_)) => {
                return Some(Ok([0, 0, 0, 0]));
            }
            Err(number) => return Some(Err(number)),
        };
        if self.lapse == Lapse::ShowWrites {
            // A word that means nothing.
            table[16] ^= 1;
        }
        let answer = shown(&state, ask);
        Some(match (self.lapse, ask) {
            (Lapse::WaitingShownAsLast, Ask::Edition) => {
                answer.map(|[last, waits, ..]| [last.max(waits), waits, 0, 0])
            }
            (Lapse::SharedNotShown, Ask::Lane(_)) => answer.map(|[w, l, h, group]| [w, l, h, group & 0xFF]),
            (Lapse::OneTrainCounted, Ask::Backlog(lane)) => answer.map(|[count, time, ..]| {
                let queue = state.lane(lane).and_then(|lane| lane.waiting.queue(0));
                [queue.map_or(count, |queue| queue.len() as u64), time, 0, 0]
            }),
            (Lapse::PlaceShownAsLast, Ask::Record(lane, before)) if answer == Err(refusal::NOTHING_HELD) => {
                let count = state
                    .lane(lane)
                    .and_then(|lane| lane.waiting.queue(0))
                    .map_or(0, |queue| queue.len() as u64);
                shown(&state, Ask::Record(lane, before.min(count.saturating_sub(1))))
            }
            (Lapse::TrainShownAsLane, Ask::TrainRecord(lane, _, before)) => {
                shown(&state, Ask::Record(lane, before))
            }
            (Lapse::WaitByBareRecords, Ask::Wait(lane, ahead)) => answer.map(|[asked, tight, ..]| {
                let c =
                    state.lane(lane).filter(|lane| !lane.plan.shared).map_or(0, |lane| lane.units_per_byte);
                let bare = (i128::from(ahead) * c * i128::from(state.framing) / 1_024) as u64;
                [asked - bare, tight - bare, 0, 0]
            }),
            _ => answer,
        })
    }

    fn run(&mut self, session: &[u8], limit: u64, table: &mut [u8], answers: &mut [u8]) -> Run {
        let outcome = session::run(session, limit, table.len(), TABLE_SIZE, answers.len());
        answers[..outcome.text.len()].copy_from_slice(outcome.text.as_bytes());
        if let Some(state) = outcome.state {
            layout::write(&state, table);
        }
        outcome.result
    }
}
