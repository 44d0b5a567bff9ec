//! The cases of the halt's comparison: each drawn from the seed and its own number alone.
//!
//! - a setup is made of: the answer, the bytes, and what a made table holds;
//! - every call is asked on a table: 10 and no byte written, or what the plain rules say;
//! - a list of calls from a made table: the answers, and how many bytes each lane that waits sees sent.

use super::{draw, held, makes, Halt, SEES_BELOW};
use crate::calls::{Answer, Call};
use crate::driver::cases;
use crate::driver::lent::Lent;
use crate::driver::report::{hex, Found};
use crate::gen::{caller::Caller, setups};
use crate::layout::{self, TABLE_SIZE};
use crate::numbers::refusal;
use crate::rng::Rng;
use crate::rules::State;
use crate::run::book::kept;
use std::fmt;

const SETUPS: u64 = 12;
const TABLES: u64 = 4;
const LIST: u64 = 400;

/// Counts of a comparison.
#[derive(Clone, Debug, Default, PartialEq, Eq)]
pub struct Tally {
    pub cases: u64,
    pub setups: u64,
    pub made: u64,
    pub ninety: u64,
    pub tables: u64,
    /// Tables that are the halt's.
    pub own: u64,
    pub calls: u64,
    /// The most bytes that a waiting lane saw.
    pub seen: [u64; 4],
}

kept!(Tally {
    sum: cases, setups, made, ninety, tables, own, calls;
    most: seen;
});

impl fmt::Display for Tally {
    fn fmt(&self, f: &mut fmt::Formatter) -> fmt::Result {
        write!(
            f,
            "halts: {} cases, {} setups, {} made, refused by 90: {}; {} tables, {} of the halt's; {} calls",
            self.cases, self.setups, self.made, self.ninety, self.tables, self.own, self.calls
        )?;
        write!(
            f,
            "\n  a waiting lane saw at most {:?} bytes, and must see fewer than {SEES_BELOW:?}",
            self.seen
        )
    }
}

/// One case.
pub fn case<H: Halt>(halt: &mut H, rng: &mut Rng, tally: &mut Tally) -> Result<(), Found> {
    tally.cases += 1;
    match rng.below(3) {
        0 => (0..SETUPS).try_for_each(|_| setup(halt, rng, tally)),
        1 => (0..TABLES).try_for_each(|_| table(halt, rng, tally)),
        _ => list(halt, rng, tally),
    }
}

fn setup<H: Halt>(halt: &mut H, rng: &mut Rng, tally: &mut Tally) -> Result<(), Found> {
    let input = draw::input(rng);
    let mut table = Lent::new(rng, TABLE_SIZE);
    let length = match rng.below(12) {
        0 => TABLE_SIZE - 1,
        1 => rng.index(TABLE_SIZE),
        _ => table.bytes().len(),
    };
    let before = table.copy();
    tally.setups += 1;
    let expected = makes(&input, length);
    let given = halt.make(&input, table.short(length));
    let wrong = match &expected {
        _ if given != expected.as_ref().map(|_| 4).map_err(|refused| *refused) => {
            Some(format!("the unit says {given:?}, the rules {expected:?}"))
        }
        Ok(setup) => {
            tally.made += 1;
            let fresh = State::fresh(setup);
            let holds = held(&table.copy()).is_some_and(|state| state.alike(&fresh));
            (!holds).then(|| "the table that was made is not the halt's fresh one".to_string())
        }
        Err(refused) => {
            tally.ninety += u64::from(refused.number == u64::from(refusal::NOT_A_HALT));
            (!table.same(&before)).then(|| "a refused making wrote".to_string())
        }
    };
    let shown_by = || vec![format!("make {} on {length} bytes", hex(&input))];
    match wrong.or_else(|| table.guarded().err()) {
        None => Ok(()),
        Some(what) => Err(Found::new(what, shown_by())),
    }
}

/// Every call on one table, each on the same bytes.
fn table<H: Halt>(halt: &mut H, rng: &mut Rng, tally: &mut Tally) -> Result<(), Found> {
    let (bytes, how) = draw::table(rng);
    let mut lent = Lent::new(rng, TABLE_SIZE);
    tally.tables += 1;
    tally.own += u64::from(held(&bytes).is_some());
    let lane = rng.pick(&[0, 1, 2, 3, 3, 4, 255]);
    let length = rng.pick(&[0, 1, 256, 256, 257]);
    let calls = [
        Call::Put { lane, mark: rng.word() as u32, length },
        Call::Put { lane: 3, mark: rng.word() as u32, length: 64 },
        Call::Take,
        Call::Look,
        Call::Sets,
        Call::Lag { lane },
        Call::Restart,
    ];
    for one in calls {
        lent.bytes()[..TABLE_SIZE].copy_from_slice(&bytes);
        call(halt, &mut lent, &one, tally).map_err(|what| Found::new(what, how.clone()))?;
    }
    // The first bytes alone are no good table.
    let length = if rng.once_in(2) { TABLE_SIZE - 1 } else { rng.index(TABLE_SIZE) };
    let answer = halt.answer(lent.short(length), &Call::Sets);
    match answer == Answer::No(refusal::NOT_GOOD) {
        true => Ok(()),
        false => Err(Found::new(format!("sets on the first {length} bytes gave {answer}"), how)),
    }
}

/// One call on lent bytes: the answer, and the bytes after it.
fn call<H: Halt>(halt: &mut H, lent: &mut Lent, call: &Call, tally: &mut Tally) -> Result<(), String> {
    let before = lent.copy();
    let mut state = held(&before);
    let expected = state.as_mut().map_or(Answer::No(refusal::NOT_GOOD), |state| state.answer(call));
    let given = halt.answer(lent.bytes(), call);
    tally.calls += 1;
    if given != expected {
        return Err(format!("{call}: the unit gave {given}, the rules {expected}"));
    }
    lent.guarded()?;
    if call.only_reads() || expected.refused() {
        return if lent.same(&before) { Ok(()) } else { Err(format!("{call} changed the table: {given}")) };
    }
    match (layout::read(&lent.copy()).state, state) {
        (Some(after), Some(state)) if after.alike(&state) => Ok(()),
        (after, state) => Err(format!("{call} left {after:?}, the rules {state:?}")),
    }
}

/// A list of calls from a table that was made.
fn list<H: Halt>(halt: &mut H, rng: &mut Rng, tally: &mut Tally) -> Result<(), Found> {
    let setup = draw::halt(rng);
    let mut lent = Lent::new(rng, TABLE_SIZE);
    let bytes = setups::bytes(rng, &setup);
    let mut calls = vec![];
    let found = |what: String, calls: &[(Call, Answer)]| {
        let made = [format!("make {}", hex(&bytes))];
        let calls = calls.iter().map(|(call, answer)| format!("{call} -> {answer}"));
        Err(Found::new(what, made.into_iter().chain(calls).collect()))
    };
    if let Err(refused) = halt.make(&bytes, lent.bytes()) {
        return found(format!("the halt's setup gave {refused:?}"), &calls);
    }
    let mut state = State::fresh(&setup);
    let mut caller = Caller::new(rng);
    let mut seen = [0; 4];
    for _ in 0..rng.below(LIST) {
        let call = of_halt(caller.next(rng, &state));
        let expected = state.answer(&call);
        caller.heard(expected);
        let given = halt.answer(lent.bytes(), &call);
        calls.push((call, expected));
        tally.calls += 1;
        if given != expected {
            return found(format!("the unit gave {given}"), &calls);
        }
        if let Err(what) = sees(&state, expected, &mut seen, tally) {
            return found(what, &calls);
        }
    }
    let wrong = match held(&lent.copy()) {
        Some(after) if after.alike(&state) => lent.guarded().err(),
        after => Some(format!("the table holds {after:?}, and should hold {state:?}")),
    };
    wrong.map_or(Ok(()), |what| found(what, &calls))
}

/// A put of the halt's is of train 0.
fn of_halt(call: Call) -> Call {
    match call {
        Call::PutTrain { lane, mark, length, .. } => Call::Put { lane, mark, length },
        call => call,
    }
}

/// How many bytes each lane has seen sent since it last sent one or began to hold records.
fn sees(state: &State, answer: Answer, seen: &mut [u64; 4], tally: &mut Tally) -> Result<(), String> {
    for (lane, bytes) in (0..).zip(seen.iter_mut()) {
        let holds = state.lane(lane).is_some_and(|lane| lane.holds());
        *bytes = match answer {
            _ if !holds => 0,
            Answer::Taken(record) if record.lane == lane => 0,
            Answer::Taken(record) => *bytes + record.length,
            _ => *bytes,
        };
        let at = usize::from(lane);
        tally.seen[at] = tally.seen[at].max(*bytes);
        if *bytes >= SEES_BELOW[at] {
            return Err(format!("lane {lane} waits and has seen {bytes} bytes sent"));
        }
    }
    Ok(())
}

/// The case of this number, with other random numbers than those of the other comparisons.
pub fn one<H: Halt>(halt: &mut H, seed: u64, number: u64, tally: &mut Tally) -> Result<(), Found> {
    case(halt, &mut Rng::of_case(seed ^ 0x0004_0256_0000_0000, number), tally)
}

/// Cases from `first` on while `more` says so, with the case that shows a difference.
pub fn compare<H: Halt>(
    halt: &mut H,
    seed: u64,
    first: u64,
    more: impl FnMut(u64) -> bool,
    tally: &mut Tally,
) -> Result<(), (u64, Found)> {
    cases(first, more, |number| one(halt, seed, number, tally))
}
