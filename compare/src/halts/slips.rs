//! The halt with one mistake, on docs/TABLE.md's words.

use super::{own, plans, Halt, Refused, LANES};
use crate::calls::{Answer, Call};
use crate::layout::{self, TABLE_SIZE};
use crate::numbers::refusal;
use crate::on_words::{Lapse, OnWords};
use crate::rules::State;
use crate::setup::{self, LanePlan};
use crate::unit::Unit;

#[derive(Clone, Copy, Debug, PartialEq, Eq)]
pub enum Slip {
    None,
    /// Of setups: the same weights in other lanes are taken,
    PlanOtherLanes,
    /// in another order,
    PlanOtherOrder,
    /// with another longest,
    PlanOtherLongest,
    /// with framing bytes,
    PlanFramed,
    /// with a shared lane;
    PlanShared,
    /// any setup that reads is taken;
    PlanAny,
    /// and so is one whose first three lanes are right.
    PlanThreeLanes,
    /// Format 1 alone is taken.
    PlanFormatOne,
    /// 90 is told before 7,
    NinetyFirst,
    /// for a setup that does not read,
    NinetyUnread,
    /// with a place,
    NinetyPlaced,
    /// and has written.
    NinetyWrites,
    /// Of tables the same: other lanes,
    TableOtherLanes,
    /// another order,
    TableOtherOrder,
    /// another longest,
    TableOtherLongest,
    /// framing bytes,
    TableFramed,
    /// a shared lane,
    TableShared,
    /// and any.
    TableAny,
    /// The calls go on while a page waits,
    WaitingGoesOn,
    /// or where that page has the halt's own setup.
    WaitingOwnGoesOn,
    /// A table with an edition that was taken is refused.
    EditionRefused,
    /// A refused call has written.
    TenWrites,
    /// One call does not test whose table it is.
    PutUntested,
    TakeUntested,
    LookUntested,
    SetsUntested,
    LagUntested,
    RestartUntested,
}

pub const ALL: &[Slip] = &[
    Slip::PlanOtherLanes,
    Slip::PlanOtherOrder,
    Slip::PlanOtherLongest,
    Slip::PlanFramed,
    Slip::PlanShared,
    Slip::PlanAny,
    Slip::PlanThreeLanes,
    Slip::PlanFormatOne,
    Slip::NinetyFirst,
    Slip::NinetyUnread,
    Slip::NinetyPlaced,
    Slip::NinetyWrites,
    Slip::TableOtherLanes,
    Slip::TableOtherOrder,
    Slip::TableOtherLongest,
    Slip::TableFramed,
    Slip::TableShared,
    Slip::TableAny,
    Slip::WaitingGoesOn,
    Slip::WaitingOwnGoesOn,
    Slip::EditionRefused,
    Slip::TenWrites,
    Slip::PutUntested,
    Slip::TakeUntested,
    Slip::LookUntested,
    Slip::SetsUntested,
    Slip::LagUntested,
    Slip::RestartUntested,
];

/// What a test of the lanes leaves out.
enum Loose {
    Nothing,
    Numbers,
    Order,
    Longest,
    Framing,
    Shared,
    Fourth,
    All,
}

fn loosely(loose: Loose, framing: u8, lanes: Vec<LanePlan>) -> bool {
    let with = |change: fn(&mut LanePlan, &LanePlan)| {
        let mut lanes = lanes.clone();
        lanes.iter_mut().zip(&LANES).for_each(|(lane, halt)| change(lane, halt));
        own(framing, lanes.into_iter())
    };
    match loose {
        Loose::Nothing => with(|_, _| {}),
        Loose::Numbers => with(|lane, halt| lane.number = halt.number),
        Loose::Longest => with(|lane, halt| lane.longest = halt.longest),
        Loose::Shared => with(|lane, halt| lane.shared = halt.shared),
        Loose::Framing => own(0, lanes.into_iter()),
        Loose::Order => {
            let mut weights: Vec<u16> = lanes.iter().map(|lane| lane.weight).collect();
            weights.sort_unstable_by(|a, b| b.cmp(a));
            let mut lanes = lanes;
            lanes.iter_mut().zip(weights).for_each(|(lane, weight)| lane.weight = weight);
            own(framing, lanes.into_iter())
        }
        Loose::Fourth => framing == 0 && lanes.len() >= 3 && lanes[..3] == LANES[..3],
        Loose::All => true,
    }
}

pub struct Slipped(pub Slip);

impl Slipped {
    fn takes_plan(&self, setup: &setup::Setup) -> bool {
        let loose = match self.0 {
            Slip::PlanOtherLanes => Loose::Numbers,
            Slip::PlanOtherOrder => Loose::Order,
            Slip::PlanOtherLongest => Loose::Longest,
            Slip::PlanFramed => Loose::Framing,
            Slip::PlanShared => Loose::Shared,
            Slip::PlanAny => Loose::All,
            Slip::PlanThreeLanes => Loose::Fourth,
            Slip::PlanFormatOne if setup.format != 1 => return false,
            _ => Loose::Nothing,
        };
        loosely(loose, setup.framing, setup.lanes.clone())
    }

    fn takes_table(&self, state: &State, call: &Call) -> bool {
        let untested = matches!(
            (self.0, call),
            (Slip::PutUntested, Call::Put { .. })
                | (Slip::TakeUntested, Call::Take)
                | (Slip::LookUntested, Call::Look)
                | (Slip::SetsUntested, Call::Sets)
                | (Slip::LagUntested, Call::Lag { .. })
                | (Slip::RestartUntested, Call::Restart)
        );
        let goes_on = match &state.page {
            None => true,
            Some(page) => match self.0 {
                Slip::WaitingGoesOn => true,
                Slip::WaitingOwnGoesOn => own(page.setup.framing, page.setup.lanes.iter().copied()),
                _ => false,
            },
        };
        let loose = match self.0 {
            Slip::TableOtherLanes => Loose::Numbers,
            Slip::TableOtherOrder => Loose::Order,
            Slip::TableOtherLongest => Loose::Longest,
            Slip::TableFramed => Loose::Framing,
            Slip::TableShared => Loose::Shared,
            Slip::TableAny => Loose::All,
            _ => Loose::Nothing,
        };
        let fresh = self.0 != Slip::EditionRefused || state.edition == 0;
        untested || goes_on && fresh && loosely(loose, state.framing, plans(state).collect())
    }
}

impl Halt for Slipped {
    fn make(&mut self, input: &[u8], table: &mut [u8]) -> Result<u64, Refused> {
        let ninety = match self.0 {
            Slip::NinetyPlaced => Refused::at(refusal::NOT_A_HALT.into(), 0),
            _ => Refused::by(refusal::NOT_A_HALT.into()),
        };
        let read = setup::whole(input);
        let other = read.as_ref().is_ok_and(|setup| !self.takes_plan(setup));
        if self.0 == Slip::NinetyFirst && other {
            return Err(ninety);
        }
        if table.len() < TABLE_SIZE {
            return Err(Refused::at(refusal::TABLE_SHORT.into(), 0));
        }
        if let (Slip::NinetyUnread, Err(_)) = (self.0, &read) {
            return Err(ninety);
        }
        read.map_err(|fault| Refused::at(fault.number.into(), fault.place))?;
        if other {
            if self.0 == Slip::NinetyWrites {
                table[0] ^= 1;
            }
            return Err(ninety);
        }
        let made = OnWords { lapse: Lapse::None }.make(input, table);
        made.map_err(|fault| Refused::at(fault.number.into(), fault.place))
    }

    fn answer(&mut self, table: &mut [u8], call: &Call) -> Answer {
        match layout::read(table).good() {
            Some(state) if !self.takes_table(&state, call) => {
                if self.0 == Slip::TenWrites {
                    table[0] ^= 1;
                }
                Answer::No(refusal::NOT_GOOD)
            }
            _ => OnWords { lapse: Lapse::None }.answer(table, call),
        }
    }
}
