//! The unit under test as the comparison sees it: the public calls on lent bytes.
//!
//! Every call gets its table for writing, the ones that only read too, so that a write would be seen.

use crate::calls::{Answer, Call, Taken};
use crate::fields::Fault;
use crate::layout;
use crate::numbers::refusal;
use crate::rules::State;
use crate::session::{self, Run};
use crate::setup;
use crate::shelf::{Shelf, TABLE_SIZE};
use crate::shown::{shown, Ask};

pub trait Unit {
    /// The table's fixed size in bytes.
    fn table_size(&self) -> usize;
    /// Whether its tables are laid out as docs/TABLE.md says, so that tables that no call made can be compared.
    fn documented_layout(&self) -> bool {
        false
    }
    /// The number of lanes, or a refusal 1 to 7 or 50 to 54 with its place.
    fn make(&mut self, setup: &[u8], table: &mut [u8]) -> Result<u64, Fault>;
    /// The number of records of train 0 that the lane held before.
    fn put(&mut self, table: &mut [u8], lane: u8, mark: u32, length: u64) -> Result<u64, u8>;
    /// The number of the train's records that the lane held before.
    fn put_train(&mut self, table: &mut [u8], lane: u8, train: u8, mark: u32, length: u64)
        -> Result<u64, u8>;
    fn take(&mut self, table: &mut [u8]) -> Result<Taken, u8>;
    fn look(&mut self, table: &mut [u8]) -> Result<Taken, u8>;
    fn sets(&mut self, table: &mut [u8]) -> Result<[u64; 4], u8>;
    fn lag(&mut self, table: &mut [u8], lane: u8) -> Result<i64, u8>;
    fn restart(&mut self, table: &mut [u8]) -> Result<(), u8>;
    /// Whether the page is in force or waits, or a refusal, with a place where the page cannot be read.
    fn offer(&mut self, table: &mut [u8], page: &[u8]) -> Answer;
    fn run(&mut self, session: &[u8], limit: u64, table: &mut [u8], answers: &mut [u8]) -> Run;

    /// What the table shows, if the unit has calls for that.
    fn show(&mut self, _table: &mut [u8], _ask: Ask) -> Option<Result<[u64; 4], u8>> {
        None
    }

    /// No call of the unit: moves a good table's clock on by a multiple of 2^31, as if so much less had been taken off it, so that lists come to where the
    /// clock is taken back.
    fn lift(&mut self, table: &mut [u8], up: u64) {
        layout::lift(table, up);
    }

    fn answer(&mut self, table: &mut [u8], call: &Call) -> Answer {
        let answer = match call {
            Call::Put { lane, mark, length } => self.put(table, *lane, *mark, *length).map(Answer::Put),
            Call::PutTrain { lane, train, mark, length } => {
                self.put_train(table, *lane, *train, *mark, *length).map(Answer::Put)
            }
            Call::Take => self.take(table).map(Answer::Taken),
            Call::Look => self.look(table).map(Answer::Looked),
            Call::Sets => self.sets(table).map(Answer::Sets),
            Call::Lag { lane } => self.lag(table, *lane).map(Answer::Lag),
            Call::Restart => self.restart(table).map(|()| Answer::Restarted),
            Call::Offer(page) => Ok(self.offer(table, page)),
        };
        answer.unwrap_or_else(Answer::No)
    }
}

/// The reference behind the unit's face. Its state stays on a shelf outside the lent bytes.
#[derive(Default)]
pub struct Reference {
    shelf: Shelf<State>,
}

impl Reference {
    /// A call that changes the state unless it is refused.
    fn change<T>(&mut self, table: &mut [u8], call: impl Fn(&mut State) -> Result<T, u8>) -> Result<T, u8> {
        let answer = call(self.shelf.open(table).ok_or(refusal::NOT_GOOD)?)?;
        self.shelf.sign(table);
        Ok(answer)
    }

    fn read<T>(&mut self, table: &[u8], call: impl Fn(&State) -> Result<T, u8>) -> Result<T, u8> {
        call(self.shelf.open(table).ok_or(refusal::NOT_GOOD)?)
    }
}

impl Unit for Reference {
    fn table_size(&self) -> usize {
        TABLE_SIZE
    }

    fn make(&mut self, setup: &[u8], table: &mut [u8]) -> Result<u64, Fault> {
        if table.len() < TABLE_SIZE {
            return Err(Fault::at(refusal::TABLE_SHORT, 0));
        }
        let setup = setup::whole(setup)?;
        self.shelf.put(State::fresh(&setup), table);
        Ok(setup.lanes.len() as u64)
    }

    fn put(&mut self, table: &mut [u8], lane: u8, mark: u32, length: u64) -> Result<u64, u8> {
        self.change(table, |state| state.put(lane, mark, length))
    }

    fn put_train(
        &mut self,
        table: &mut [u8],
        lane: u8,
        train: u8,
        mark: u32,
        length: u64,
    ) -> Result<u64, u8> {
        self.change(table, |state| state.put_train(lane, train, mark, length))
    }

    fn take(&mut self, table: &mut [u8]) -> Result<Taken, u8> {
        self.change(table, State::take)
    }

    fn look(&mut self, table: &mut [u8]) -> Result<Taken, u8> {
        self.read(table, State::look)
    }

    fn sets(&mut self, table: &mut [u8]) -> Result<[u64; 4], u8> {
        self.read(table, |state| Ok(state.sets()))
    }

    fn lag(&mut self, table: &mut [u8], lane: u8) -> Result<i64, u8> {
        self.read(table, |state| state.lag(lane))
    }

    fn restart(&mut self, table: &mut [u8]) -> Result<(), u8> {
        self.change(table, State::restart)
    }

    fn offer(&mut self, table: &mut [u8], page: &[u8]) -> Answer {
        let Some(state) = self.shelf.open(table) else { return Answer::No(refusal::NOT_GOOD) };
        let answer = state.offer(page);
        if !answer.refused() {
            self.shelf.sign(table);
        }
        answer
    }

    fn show(&mut self, table: &mut [u8], ask: Ask) -> Option<Result<[u64; 4], u8>> {
        Some(self.read(table, |state| shown(state, ask)))
    }

    fn lift(&mut self, table: &mut [u8], up: u64) {
        self.shelf.open(table).expect("the table that is kept").lift(up.into());
        self.shelf.sign(table);
    }

    fn run(&mut self, session: &[u8], limit: u64, table: &mut [u8], answers: &mut [u8]) -> Run {
        let outcome = session::run(session, limit, table.len(), TABLE_SIZE, answers.len());
        answers[..outcome.text.len()].copy_from_slice(outcome.text.as_bytes());
        if let Some(state) = outcome.state {
            self.shelf.put(state, table);
        }
        outcome.result
    }
}
