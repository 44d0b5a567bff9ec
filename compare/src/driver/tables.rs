//! Tables that no call made. Each is read by [`layout`] alone: whether it is good, and what it holds. Then the unit is asked every call on it:
//!
//! - a table that is not good gives 10 in every call, and is not written;
//! - a good one gives the answer of the plain rules on its contents, and the table after it encodes what the rules make of them;
//! - as long as it is good its answers are those of an endless clock.

use super::lent::Lent;
use super::report::{Found, Tally};
use crate::calls::{Answer, Call};
use crate::gen::{caller::Caller, offers, setups, tables};
use crate::laws::endless::Endless;
use crate::layout::{self, Reading, NOW};
use crate::numbers::refusal;
use crate::rng::Rng;
use crate::rules::State;
use crate::shown::{self, Ask};
use crate::slots;
use crate::unit::Unit;

const TABLES: u64 = 24;
/// Calls that follow one another on a good table.
const WALK: u64 = 12;

pub fn case<U: Unit>(unit: &mut U, rng: &mut Rng, tally: &mut Tally) -> Result<(), Found> {
    if unit.table_size() != layout::TABLE_SIZE {
        let what = format!("the table's fixed size is {}, and not docs/TABLE.md's", unit.table_size());
        return Err(Found::new(what, vec![]));
    }
    let made = made(unit, rng)?;
    let mut lent = Lent::new(rng, layout::TABLE_SIZE);
    for _ in 0..TABLES {
        let (bytes, how) = table(rng, &made);
        let reading = layout::read(&bytes);
        tally.table(&reading);
        let last = Answer::Restarted;
        let lent = &mut lent;
        let mut table = Table { unit, lent, bytes: &bytes, reading: &reading, tally, last, laid: false };
        table.compare(rng).map_err(|what| {
            let broken = format!("clauses of a good table that it breaks: {:?}", reading.broken);
            Found::new(what, [how, vec![broken]].concat())
        })?;
    }
    Ok(())
}

/// A table that calls made; what it holds must be what the rules hold.
fn made<U: Unit>(unit: &mut U, rng: &mut Rng) -> Result<Vec<u8>, Found> {
    let setup = setups::setup(rng);
    let mut bytes = tables::blank(rng, &NOW);
    let mut state = State::fresh(&setup);
    unit.make(&setups::bytes(rng, &setup), &mut bytes)
        .map_err(|fault| Found::new(format!("a valid setup gave {fault}"), vec![]))?;
    let mut caller = Caller::offering(rng);
    for _ in 0..rng.below(120) {
        let call = caller.next(rng, &state);
        caller.heard(state.answer(&call));
        unit.answer(&mut bytes, &call);
    }
    match layout::read(&bytes).good() {
        Some(read) if read.alike(&state) && read.back == state.back => Ok(bytes),
        Some(_) => Err(Found::new("a table made by calls does not hold what the rules hold", vec![])),
        None => Err(Found::new("a table made by calls is not good", vec![])),
    }
}

/// A table and how it came to be.
fn table(rng: &mut Rng, made: &[u8]) -> (Vec<u8>, Vec<String>) {
    let (mut bytes, changes, mut how) = match rng.below(32) {
        0 => (tables::blank(rng, &NOW), rng.below(4), vec!["noise".to_string()]),
        1..=9 => (tables::laid(rng, &NOW), rng.below(2), vec!["a table laid at the edges".to_string()]),
        _ => (made.to_vec(), rng.between(1, 2), vec!["a table made by calls".to_string()]),
    };
    for _ in 0..changes {
        how.push(tables::damage(rng, &NOW, &mut bytes));
    }
    (bytes, how)
}

struct Table<'a, U: Unit> {
    unit: &'a mut U,
    lent: &'a mut Lent,
    bytes: &'a [u8],
    reading: &'a Reading,
    tally: &'a mut Tally,
    /// The last answer.
    last: Answer,
    /// Whether the lent bytes are the table as it was drawn.
    laid: bool,
}

impl<U: Unit> Table<'_, U> {
    fn compare(&mut self, rng: &mut Rng) -> Result<(), String> {
        for call in self.each_call(rng) {
            self.lay();
            self.call(&call, None)?;
        }
        if rng.once_in(4) {
            self.cut_short(rng)?;
        }
        self.shown(rng)?;
        self.lay();
        if self.reading.broken.is_empty() {
            self.walk(rng)?;
        }
        Ok(())
    }

    fn lay(&mut self) {
        if !self.laid {
            self.lent.bytes()[..layout::TABLE_SIZE].copy_from_slice(self.bytes);
            self.lent.wrote();
            self.laid = true;
        }
    }

    /// Every public call at least once.
    fn each_call(&self, rng: &mut Rng) -> Vec<Call> {
        let lanes: Vec<u8> = layout::present(self.bytes).collect();
        let own = if lanes.is_empty() { 0 } else { rng.pick(&lanes) };
        let longest = layout::word(self.bytes, layout::setting(own)) & 0xFFFF;
        let any = rng.byte();
        let lane = rng.pick(&[own, own, own, any]);
        let length = rng.pick(&[1, 64, longest, longest, longest + 1, 0]);
        let train = rng.pick(&[0, 0, 1, 2, 3, 4, 5, 6, 7, 8, any]);
        let mark = rng.word() as u32;
        let offer = |rng: &mut Rng| match &self.reading.state {
            Some(state) => offers::offer(rng, state),
            None => {
                let setup = setups::setup(rng);
                offers::offer(rng, &State::fresh(&setup))
            }
        };
        vec![
            offer(rng),
            offer(rng),
            Call::Put { lane, mark: rng.word() as u32, length },
            Call::Put { lane: own, mark: rng.word() as u32, length: longest.max(1) },
            Call::PutTrain { lane, train, mark, length },
            Call::PutTrain { lane: own, train: train % 8, mark, length: longest.max(1) },
            Call::Take,
            Call::Look,
            Call::Sets,
            Call::Lag { lane },
            Call::Lag { lane: own },
            Call::Restart,
        ]
    }

    /// Every call that shows a table at least once.
    fn each_ask(&self, rng: &mut Rng) -> Vec<Ask> {
        let lanes: Vec<u8> = layout::present(self.bytes).collect();
        let lane = if lanes.is_empty() || rng.once_in(4) { rng.byte() } else { rng.pick(&lanes) };
        let before = rng.pick(&[0, 0, 1, 64, u64::MAX]);
        let record = Ask::TrainRecord(lane, rng.below(9) as u8, before);
        let wait = Ask::Wait(lane, before);
        vec![
            Ask::Clock,
            Ask::Edition,
            Ask::Lane(lane),
            Ask::Backlog(lane),
            Ask::Record(lane, before),
            record,
            wait,
        ]
    }

    /// One call on the table that is lent, which reads as `reading`, or as the one that was drawn: the answer, and the bytes after it. If they may be others
    /// then, they are read.
    fn call(&mut self, call: &Call, reading: Option<&Reading>) -> Result<Option<Reading>, String> {
        let good = reading.unwrap_or(self.reading).as_good();
        // Contents of their own are worked on where the call may change them.
        let mut after = good.filter(|_| !call.only_reads()).cloned();
        let expected = match (&mut after, good) {
            (Some(state), _) => state.answer(call),
            (None, Some(state)) => state.told(call).expect("a call that only reads"),
            (None, None) => Answer::No(refusal::NOT_GOOD),
        };
        let back = |state: Option<&State>| state.map(|state| state.back);
        let taken_back = call.put().is_some() && back(after.as_ref()) != back(good);
        self.tally.tables_taken_back += u64::from(taken_back);
        let stays = call.only_reads() || expected.refused();
        if stays && !self.laid {
            self.lent.keep();
        }
        let answer = self.unit.answer(self.lent.bytes(), call);
        self.tally.table_call();
        self.last = answer;
        if answer != expected {
            return Err(format!("{call}: the unit gave {answer}, the rules {expected}"));
        }
        self.lent.guarded()?;
        if stays {
            let same = if self.laid { self.lent.same(self.bytes) } else { self.lent.as_kept() };
            return if same { Ok(None) } else { Err(format!("{call} changed the table: {answer}")) };
        }
        self.laid = false;
        self.lent.wrote();
        let read = layout::read(self.lent.table());
        if let Some(clause) = read.broken.iter().find(|clause| !clause.may_be_lost()) {
            return Err(format!("{call} left a table that breaks {clause:?}"));
        }
        match (&read.state, &after) {
            (Some(read), Some(state))
                if read.alike(state) && read.back == i128::from(slots::stored(state.back)) => {}
            (read, state) => return Err(format!("{call} left {read:?}, the rules {state:?}")),
        }
        Ok(Some(read))
    }

    /// What the table shows to a host that asks: 10 and nothing else, if it is not good.
    fn shown(&mut self, rng: &mut Rng) -> Result<(), String> {
        self.lay();
        let state = self.reading.as_good();
        let asks = state.map_or_else(|| self.each_ask(rng), shown::all);
        for ask in asks {
            let Some(answer) = self.unit.show(self.lent.bytes(), ask) else { return Ok(()) };
            let expected = state.map_or(Err(refusal::NOT_GOOD), |state| shown::shown(state, ask));
            if answer != expected {
                return Err(format!("{ask:?} is shown as {answer:?}, and is {expected:?}"));
            }
        }
        self.lent.guarded()?;
        if self.lent.same(self.bytes) {
            Ok(())
        } else {
            Err("a call that shows the table changed it".to_string())
        }
    }

    /// Calls one after another, as long as the table is good and at most once more.
    fn walk(&mut self, rng: &mut Rng) -> Result<(), String> {
        let mut caller = Caller::offering(rng);
        let mut now: Option<Reading> = None;
        let mut endless = self.reading.state.as_ref().map(Endless::new);
        for _ in 0..rng.below(WALK + 1) {
            let reading = now.as_ref().unwrap_or(self.reading);
            let Some(state) = &reading.state else { return Ok(()) };
            let call = caller.next(rng, state);
            let good = reading.broken.is_empty();
            if let Some(read) = self.call(&call, now.as_ref())? {
                now = Some(read);
            }
            if !good {
                return Ok(());
            }
            let reading = now.as_ref().unwrap_or(self.reading);
            if let (Some(endless), Some(after)) = (&mut endless, &reading.state) {
                endless.step(&call, self.last, after)?;
            }
            self.tally.tables_lost += u64::from(!reading.broken.is_empty());
        }
        Ok(())
    }

    /// The first bytes alone are not good, whatever they hold.
    fn cut_short(&mut self, rng: &mut Rng) -> Result<(), String> {
        let length = if rng.once_in(2) { layout::TABLE_SIZE - 1 } else { rng.index(layout::TABLE_SIZE) };
        self.lay();
        for call in self.each_call(rng) {
            let answer = self.unit.answer(self.lent.short(length), &call);
            self.tally.table_call();
            if answer != Answer::No(refusal::NOT_GOOD) {
                return Err(format!("{call} on the table's first {length} bytes gave {answer}"));
            }
            if !self.lent.same(self.bytes) {
                return Err(format!("{call} on the table's first {length} bytes changed it"));
            }
        }
        self.tally.table(&layout::read(&self.bytes[..length]));
        Ok(())
    }
}
