//! A unit to try the comparison on: a second implementation, built otherwise than the reference, that can be told
//! to make one [`Slip`]. Without a slip the comparison must find no difference; with any slip it must find one.

mod engine;
mod junction;
mod offers;
mod reader;
mod session;
mod slips;

pub use slips::{Slip, ALL};

use crate::calls::{Answer, Taken};
use crate::fields::Fault;
use crate::session::Run;
use crate::shelf::{Shelf, TABLE_SIZE};
use crate::unit::Unit;
use engine::Engine;
use reader::Reader;

pub struct StandIn {
    slip: Slip,
    shelf: Shelf<Engine>,
}

impl StandIn {
    pub fn new(slip: Slip) -> StandIn {
        StandIn { slip, shelf: Shelf::default() }
    }

    fn on<T>(&mut self, table: &[u8], call: impl Fn(&mut Engine) -> Result<T, u8>) -> Result<T, u8> {
        self.shelf.open(table).map_or(Err(10), call)
    }
}

impl Unit for StandIn {
    fn table_size(&self) -> usize {
        TABLE_SIZE
    }

    fn make(&mut self, setup: &[u8], table: &mut [u8]) -> Result<u64, Fault> {
        if table.len() < TABLE_SIZE {
            return Err(Fault { number: 7, place: 0 });
        }
        let slip = self.slip;
        if slip == Slip::MakeWritesEarly {
            table[0] ^= 1;
        }
        let mut reader = Reader::new(setup, slip);
        let plan = reader.setup().map_err(|(number, place)| Fault::at(number, place))?;
        if reader.left() > 0 && slip != Slip::TrailingByteTaken {
            return Err(Fault::at(4, reader.place()));
        }
        self.shelf.put(Engine::new(&plan, slip), table);
        Ok(plan.lanes.len() as u64)
    }

    fn put(&mut self, table: &mut [u8], lane: u8, mark: u32, length: u64) -> Result<u64, u8> {
        self.put_train(table, lane, 0, mark, length)
    }

    fn put_train(
        &mut self,
        table: &mut [u8],
        lane: u8,
        train: u8,
        mark: u32,
        length: u64,
    ) -> Result<u64, u8> {
        let answer = self.on(table, |engine| engine.put(lane, train, mark, length));
        if answer.is_ok() || (self.slip == Slip::RefusalWrites && answer != Err(10)) {
            self.shelf.sign(table);
        }
        answer
    }

    fn take(&mut self, table: &mut [u8]) -> Result<Taken, u8> {
        let taken = self.on(table, Engine::take)?;
        self.shelf.sign(table);
        if self.slip == Slip::WritesPastTable && table.len() > TABLE_SIZE {
            table[TABLE_SIZE] ^= 1;
        }
        Ok(taken)
    }

    fn look(&mut self, table: &mut [u8]) -> Result<Taken, u8> {
        let seen = self.on(table, |engine| engine.look());
        if self.slip == Slip::LookWrites && seen.is_ok() {
            self.shelf.sign(table);
        }
        seen
    }

    fn sets(&mut self, table: &mut [u8]) -> Result<[u64; 4], u8> {
        self.on(table, |engine| Ok(engine.sets()))
    }

    fn lag(&mut self, table: &mut [u8], lane: u8) -> Result<i64, u8> {
        self.on(table, |engine| engine.lag(lane))
    }

    fn restart(&mut self, table: &mut [u8]) -> Result<(), u8> {
        self.on(table, Engine::restart)?;
        self.shelf.sign(table);
        Ok(())
    }

    fn offer(&mut self, table: &mut [u8], page: &[u8]) -> Answer {
        let Some(engine) = self.shelf.open(table) else { return Answer::No(10) };
        let answer = engine.offer(page);
        if !answer.refused() || self.slip == Slip::RefusedOfferWrites {
            self.shelf.sign(table);
        }
        answer
    }

    fn run(&mut self, session: &[u8], limit: u64, table: &mut [u8], answers: &mut [u8]) -> Run {
        session::run(self, session, limit, table, answers)
    }

    fn lift(&mut self, table: &mut [u8], up: u64) {
        self.shelf.open(table).expect("the table that is kept").lift(up);
        self.shelf.sign(table);
    }
}
