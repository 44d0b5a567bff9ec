//! Settings pages that are offered (R19): in force at once, or when the last record is handed out.

use super::State;
use crate::calls::Answer;
use crate::numbers::refusal;
use crate::pages::{reader, Page};

impl State {
    /// R14.49: 10, what is wrong in the page, 60.
    pub fn offer(&mut self, page: &[u8]) -> Answer {
        match reader::read(page) {
            Err(fault) => Answer::Unread(fault),
            Ok(page) if page.edition <= self.newest() => Answer::No(refusal::OLD_EDITION),
            Ok(page) => {
                // R19.8: in place of one that waited.
                self.page = Some(page);
                if self.settle() {
                    Answer::InForce
                } else {
                    Answer::Waits
                }
            }
        }
    }

    /// The greater of the last edition taken and the one that waits.
    fn newest(&self) -> u16 {
        self.page.as_ref().map_or(0, |page| page.edition).max(self.edition)
    }

    /// R19.9: with no lane holding, the page that waits comes into force, with a fresh table. Whether one does now.
    pub(super) fn settle(&mut self) -> bool {
        if self.holding().next().is_some() {
            return false;
        }
        match self.page.take() {
            None => false,
            Some(Page { edition, setup }) => {
                *self = State { edition, ..State::fresh(&setup) };
                true
            }
        }
    }
}
