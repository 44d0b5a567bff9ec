//! The stand-in's settings pages. The page is read by the reader that is built otherwise.

use super::engine::Engine;
use super::reader::Plan;
use super::slips::Slip;
use crate::calls::Answer;
use crate::pages::slips::{Slip as Reading, Slipped};
use crate::pages::Reads;
use crate::setup::Setup;

fn planned(setup: &Setup) -> Plan {
    let lanes = setup.lanes.iter();
    let lanes = lanes.map(|l| (usize::from(l.number), l.weight.into(), l.longest.into(), l.shared)).collect();
    Plan { format: setup.format.into(), framing: setup.framing.into(), lanes }
}

impl Engine {
    pub fn offer(&mut self, bytes: &[u8]) -> Answer {
        let waits = self.page.as_ref().map_or(0, |(edition, _)| *edition);
        let told = match bytes {
            [0x40, 0, 2, high, low, ..] => u64::from(*high) * 256 + u64::from(*low),
            _ => u64::MAX,
        };
        if self.slip == Slip::EditionBeforePage && told <= waits.max(self.edition) {
            return Answer::No(60);
        }
        let answer = match Slipped(Reading::None).read(bytes) {
            Err(fault) => Answer::Unread(fault),
            Ok(page) if self.is_old(page.edition.into(), waits) => Answer::No(60),
            Ok(page) => return self.accepted(page.edition.into(), planned(&page.setup)),
        };
        if self.slip == Slip::RefusedPageDrops {
            self.page = None;
        }
        answer
    }

    fn is_old(&self, edition: u64, waits: u64) -> bool {
        match self.slip {
            Slip::EqualEditionTaken => edition < waits.max(self.edition) || edition == 0,
            Slip::WaitingEditionUnread => edition <= self.edition,
            Slip::LastEditionUnread if waits > 0 => edition <= waits,
            Slip::LastEditionUnread => edition == 0,
            Slip::EditionZeroTaken => edition <= waits.max(self.edition) && waits.max(self.edition) > 0,
            Slip::EditionSigned => (edition as i16) <= waits.max(self.edition) as i16,
            _ => edition <= waits.max(self.edition),
        }
    }

    fn accepted(&mut self, edition: u64, plan: Plan) -> Answer {
        let held = self.held().next().is_some();
        if self.slip == Slip::FirstPageStays && self.page.is_some() {
            return Answer::Waits;
        }
        match self.slip {
            Slip::PageAtOnce if held => {
                self.change(edition, &plan);
                return Answer::Waits;
            }
            Slip::PageWaitsIdle => {
                self.page = Some((edition, plan));
                return Answer::Waits;
            }
            _ => {}
        }
        if held {
            self.page = Some((edition, plan));
            return Answer::Waits;
        }
        self.change(edition, &plan);
        Answer::InForce
    }

    /// A page that waits comes into force where nothing is held.
    pub fn settle(&mut self) {
        if self.held().next().is_some() {
            return;
        }
        if let Some((edition, plan)) = self.page.take() {
            self.change(edition, &plan);
        }
    }

    fn change(&mut self, edition: u64, plan: &Plan) {
        let slip = self.slip;
        let mut fresh = Engine::new(plan, slip);
        match slip {
            Slip::ChangeKeepsClock => fresh.clock = self.clock,
            Slip::ChangeDropsFraming => fresh.framing = 0,
            Slip::ChangeKeepsLanes => {
                for (flow, old) in fresh.flows.iter_mut().zip(self.flows.drain(..)) {
                    *flow = flow.take().or(old);
                }
            }
            _ => {}
        }
        fresh.edition = if slip == Slip::EditionNotTaken { self.edition } else { edition };
        *self = fresh;
    }
}
