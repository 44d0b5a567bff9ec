//! Lists of calls: the same calls to the unit and to the reference, answer by answer.

use super::lent::Lent;
use super::report::{hex, Found, Tally};
use super::shrink;
use crate::calls::{Answer, Call};
use crate::gen::{caller::Caller, setups};
use crate::laws::Laws;
use crate::layout;
use crate::numbers::{refusal, CLOCK_FAR, CLOCK_STEP};
use crate::rng::Rng;
use crate::rules::State;
use crate::shown::{self, Ask};
use crate::slots;
use crate::unit::Unit;
use std::fmt;

pub fn case<U: Unit>(unit: &mut U, rng: &mut Rng, tally: &mut Tally) -> Result<(), Found> {
    let setup = setups::setup(rng);
    let bytes = setups::bytes(rng, &setup);
    let mut table = Lent::new(rng, unit.table_size());
    let made = unit.make(&bytes, table.bytes());
    if made != Ok(setup.lanes.len() as u64) {
        return Err(Found::new(
            format!("a valid setup of {} lanes gave {made:?}", setup.lanes.len()),
            vec![format!("make {}", hex(&bytes))],
        ));
    }
    let fresh = State::fresh(&setup);
    let lifts = rng.once_in(2).then(|| Lifts::drawn(rng));
    let mut list = List::new(unit, table, fresh.clone(), lifts);
    let result = list.run(rng, tally);
    tally.list(&list.laws);
    let (mut calls, unit) = (list.calls, list.unit);
    result.map_err(|what| {
        let mut differs = |calls: &[Call]| replay(unit, &bytes, &fresh, lifts, calls);
        let short = shrink::list(calls.iter().map(|(call, _)| call.clone()).collect(), &mut differs);
        let what = match short {
            Some((list, what)) => {
                calls = list;
                what
            }
            None => what,
        };
        let mut shown_by = vec![format!("make {}", hex(&bytes))];
        shown_by.extend(lifts.map(|lifts| lifts.to_string()));
        shown_by.extend(calls.iter().map(|(call, answer)| format!("{call} -> {answer}")));
        Found::new(what, shown_by)
    })
}

/// What `replay` tells of a list that differs: the calls up to there with the rules' answers, and what differs.
pub type Replayed = (Vec<(Call, Answer)>, String);

/// The calls again on a new table: nothing, or where they differ.
fn replay<U: Unit>(
    unit: &mut U,
    setup: &[u8],
    fresh: &State,
    lifts: Option<Lifts>,
    calls: &[Call],
) -> Option<Replayed> {
    let mut table = Lent::new(&mut Rng::new(0), unit.table_size());
    unit.make(setup, table.bytes()).ok()?;
    let mut list = List::new(unit, table, fresh.clone(), lifts);
    let mut tally = Tally::default();
    let differs = calls.iter().find_map(|call| list.call(call.clone(), &mut tally).err());
    let differs = differs.or_else(|| list.laws.end(&list.state).err()).or_else(|| list.contents().err());
    let differs = differs.or_else(|| list.shown(&mut Tally::default()).err());
    differs.map(|what| (list.calls, what))
}

/// Where random lists would take years to come: before every so many calls the clock is lifted to where a put takes it back, or just before it. The
/// endless twin is not lifted, so what is lifted is what it would be.
#[derive(Clone, Copy, Debug)]
struct Lifts {
    every: usize,
    /// V is at most this after it, and less than 2^31 below.
    to: i128,
}

impl Lifts {
    fn drawn(rng: &mut Rng) -> Lifts {
        let every = if rng.once_in(3) { rng.between(1, 8) } else { rng.between(9, 200) } as usize;
        let bits = rng.between(1, 33);
        let before = i128::from(rng.below(1 << bits));
        Lifts { every, to: CLOCK_FAR + rng.pick(&[0, 1, CLOCK_STEP - 1]) - before }
    }
}

impl fmt::Display for Lifts {
    fn fmt(&self, f: &mut fmt::Formatter) -> fmt::Result {
        let Lifts { every, to } = self;
        write!(f, "before every {every} calls V, S and F are lifted by a multiple of 2^31 to {to} at most")
    }
}

/// A list in the making.
pub(super) struct List<'a, U: Unit> {
    unit: &'a mut U,
    table: Lent,
    pub(super) state: State,
    pub(super) laws: Laws,
    lifts: Option<Lifts>,
    /// The calls so far, with the answers that the rules give.
    pub(super) calls: Vec<(Call, Answer)>,
}

impl<U: Unit> List<'_, U> {
    fn new(unit: &mut U, table: Lent, fresh: State, lifts: Option<Lifts>) -> List<'_, U> {
        let laws = Laws::new(&fresh);
        List { unit, table, state: fresh, laws, lifts, calls: vec![] }
    }

    /// A list whose clock is not lifted.
    pub(super) fn plain(unit: &mut U, table: Lent, fresh: State) -> List<'_, U> {
        List::new(unit, table, fresh, None)
    }

    fn lift(&mut self) -> Result<(), String> {
        let Some(lifts) = self.lifts.filter(|lifts| self.calls.len() % lifts.every == 0) else {
            return Ok(());
        };
        let up = lifts.to - self.state.clock;
        let up = up - up % CLOCK_STEP;
        if up > 0 {
            self.contents()?;
            self.state.lift(up);
            self.unit.lift(self.table.bytes(), up as u64);
            self.table.wrote();
        }
        Ok(())
    }

    fn contents(&self) -> Result<(), String> {
        reads_as(self.unit, &self.table, &self.state)
    }

    /// What the table shows to a host that asks.
    fn shown(&mut self, tally: &mut Tally) -> Result<(), String> {
        self.asked(&shown::all(&self.state), tally)
    }

    fn asked(&mut self, asks: &[Ask], tally: &mut Tally) -> Result<(), String> {
        self.table.keep();
        for ask in asks {
            let Some(answer) = self.unit.show(self.table.bytes(), *ask) else { return Ok(()) };
            let expected = shown::shown(&self.state, *ask);
            if answer != expected {
                return Err(format!("{ask:?} is shown as {answer:?}, and is {expected:?}"));
            }
            tally.asked += 1;
        }
        self.table.guarded()?;
        if self.table.as_kept() {
            Ok(())
        } else {
            Err("a call that shows the table changed it".to_string())
        }
    }

    fn run(&mut self, rng: &mut Rng, tally: &mut Tally) -> Result<(), String> {
        let length = match rng.below(40) {
            0 => 12_000,
            1..=9 => rng.between(1, 40),
            _ => rng.between(1, 1_500),
        };
        let mut caller = Caller::offering(rng);
        for _ in 0..length {
            let call = caller.next(rng, &self.state);
            caller.heard(self.call(call.clone(), tally)?);
            if rng.once_in(8) {
                self.asked(&[shown::drawn(rng, &self.state)], tally)?;
            }
            if rng.once_in(200) {
                self.table = self.table.moved(rng);
            }
            if rng.once_in(100) {
                self.on_a_short_table(rng, call, tally)?;
            }
        }
        self.end(rng, tally)
    }

    /// One call on both sides: the answer, and what the table's bytes may do.
    pub(super) fn call(&mut self, call: Call, tally: &mut Tally) -> Result<Answer, String> {
        self.lift()?;
        let back = self.state.back;
        let expected = self.state.answer(&call);
        tally.taken_back += u64::from(self.state.back > back && call.put().is_some());
        self.calls.push((call.clone(), expected));
        let stays = call.only_reads() || expected.refused();
        if stays {
            self.table.keep();
        }
        let answer = self.unit.answer(self.table.bytes(), &call);
        if answer != expected {
            return Err(format!("the unit's answer to the last call: {answer}"));
        }
        if !stays {
            self.table.wrote();
        } else if !self.table.as_kept() {
            return Err("the last call changed the table".to_string());
        }
        self.table.guarded()?;
        tally.call(answer);
        self.laws.step(&call, answer, &self.state)?;
        Ok(answer)
    }

    /// A table cut short is not good: 10, before every other refusal, and nothing changes.
    fn on_a_short_table(&mut self, rng: &mut Rng, call: Call, tally: &mut Tally) -> Result<(), String> {
        self.table.keep();
        let size = self.unit.table_size();
        let length = if rng.once_in(2) { size - 1 } else { rng.index(size) };
        let answer = self.unit.answer(self.table.short(length), &call);
        if answer != Answer::No(refusal::NOT_GOOD) {
            return Err(format!("{call} on the table's first {length} bytes gave: {answer}"));
        }
        let ask = shown::drawn(rng, &self.state);
        let answer = self.unit.show(self.table.short(length), ask);
        if answer.is_some_and(|answer| answer != Err(refusal::NOT_GOOD)) {
            return Err(format!("{ask:?} on the table's first {length} bytes gave: {answer:?}"));
        }
        if !self.table.as_kept() {
            return Err(format!("{call} on a table cut short changed it"));
        }
        tally.call(Answer::No(refusal::NOT_GOOD));
        self.table.guarded()
    }

    /// The list's end: the laws, every lane's lag, and often a drain that shows all that the table holds.
    fn end(&mut self, rng: &mut Rng, tally: &mut Tally) -> Result<(), String> {
        self.laws.end(&self.state)?;
        for call in look_around(&self.state) {
            self.call(call, tally)?;
        }
        self.contents()?;
        self.shown(tally)?;
        if rng.once_in(2) {
            return Ok(());
        }
        // The page that waits, if one does, comes into force here.
        while self.call(Call::Take, tally)? != Answer::No(refusal::NOTHING_HELD) {
            if rng.once_in(8) {
                self.call(Call::Sets, tally)?;
            }
        }
        self.call(Call::Restart, tally)?;
        self.laws.end(&self.state)
    }
}

/// What the table holds is what the rules hold, where that can be read.
pub(super) fn reads_as<U: Unit>(unit: &U, table: &Lent, state: &State) -> Result<(), String> {
    if !unit.documented_layout() {
        return Ok(());
    }
    match layout::read(table.table()).good() {
        Some(read) if read.alike(state) && read.back == i128::from(slots::stored(state.back)) => Ok(()),
        Some(_) => Err("the table does not hold what the rules hold".to_string()),
        None => Err("the table is not good".to_string()),
    }
}

/// The calls that show a table without changing it: every lane of the setup, and some numbers beside them.
pub fn look_around(state: &State) -> Vec<Call> {
    let mut calls = vec![Call::Sets, Call::Look, Call::Lag { lane: 64 }, Call::Lag { lane: 255 }];
    for lane in &state.lanes {
        calls.push(Call::Lag { lane: lane.plan.number });
        calls.push(Call::Lag { lane: lane.plan.number + 1 });
    }
    calls
}
