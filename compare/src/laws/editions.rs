//! Settings with editions (R19), from calls and answers alone: an offer is answered by what the answers before it say, and the setup in force is that
//! of the page last accepted by the last point at which no lane held a record; before any, the one that the table was made with.

use crate::calls::{Answer, Call};
use crate::numbers::refusal;
use crate::pages::{reader, Page};
use crate::rules::State;

#[derive(Default)]
pub struct Editions {
    /// Puts accepted less records handed out, of all lanes.
    held: u64,
    /// The edition of the page last accepted; accepted editions only rise.
    newest: u16,
    /// A page that was accepted and is not yet in force.
    accepted: Option<Page>,
    /// The edition of the setup in force, 0 for the one that the table was made with.
    in_force: u16,
    /// Changes of setup so far, and those of them that a take brought.
    pub changes: u64,
    pub by_take: u64,
}

impl Editions {
    /// One more call, its answer, and what the table holds after it. Answers whether the setup is another one now: then nothing is held.
    pub fn step(&mut self, call: &Call, answer: Answer, after: &State) -> Result<bool, String> {
        match (call, answer) {
            (_, Answer::Put(_)) => self.held += 1,
            (Call::Take, Answer::Taken(_)) => {
                self.held = self.held.checked_sub(1).ok_or("a record was taken that no put gave")?;
            }
            (Call::Offer(page), answer) => self.offered(page, answer)?,
            _ => {}
        }
        let changed = self.held == 0 && self.accepted.is_some();
        if changed {
            let page = self.accepted.take().expect("a page");
            self.in_force = page.edition;
            self.changes += 1;
            self.by_take += u64::from(*call == Call::Take);
            let lanes = after.lanes.iter().map(|lane| lane.plan);
            if !lanes.eq(page.setup.lanes.iter().copied()) || after.framing != page.setup.framing {
                return Err(format!("the setup in force is not that of edition {}", page.edition));
            }
        }
        let waits = self.accepted.as_ref().map(|page| page.edition);
        if (after.edition, after.page.as_ref().map(|page| page.edition)) != (self.in_force, waits) {
            return Err(format!("edition {} is in force and {waits:?} waits, by the answers", self.in_force));
        }
        Ok(changed)
    }

    fn offered(&mut self, page: &[u8], answer: Answer) -> Result<(), String> {
        let right = match reader::read(page) {
            Err(fault) => Answer::Unread(fault),
            Ok(page) if page.edition <= self.newest => Answer::No(refusal::OLD_EDITION),
            Ok(page) => {
                self.newest = page.edition;
                self.accepted = Some(page);
                if self.held == 0 {
                    Answer::InForce
                } else {
                    Answer::Waits
                }
            }
        };
        if answer == right {
            Ok(())
        } else {
            Err(format!("an offer was answered by {answer}, and {right} follows from the answers before"))
        }
    }
}
