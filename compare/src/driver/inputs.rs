//! Inputs: setups for `make` and sessions for `run`, on lent areas of any length.

use super::lent::Lent;
use super::lists::look_around;
use super::report::{hex, Found, Tally};
use crate::calls::Call;
use crate::fields::Fault;
use crate::gen::{damage, sessions, setups};
use crate::numbers::{refusal, BYTES_PER_LINE, LIMIT};
use crate::rng::Rng;
use crate::rules::State;
use crate::session::{self, Stop};
use crate::setup;
use crate::unit::Unit;

const SETUPS: u64 = 64;
const SESSIONS: u64 = 12;

/// Setups for `make`, all on one lent table.
pub fn makes<U: Unit>(unit: &mut U, rng: &mut Rng, tally: &mut Tally) -> Result<(), Found> {
    let mut table = Lent::new(rng, unit.table_size());
    for _ in 0..SETUPS {
        let plan = setups::setup(rng);
        let fields = setups::fields(rng, &plan);
        let input = if rng.once_in(8) { fields.concat() } else { damage::setup(rng, fields) };
        let length = lent_length(rng, unit.table_size());
        let shown_by = || vec![format!("make {} on {}", hex(&input), lent_as(length))];
        make(unit, rng, &mut table, &input, length, tally).map_err(|what| Found::new(what, shown_by()))?;
        tally.setups += 1;
    }
    Ok(())
}

/// Most tables are lent whole; the others have this length.
fn lent_length(rng: &mut Rng, size: usize) -> Option<usize> {
    match rng.below(24) {
        0 => Some(size - 1),
        1 => Some(rng.index(size)),
        _ => None,
    }
}

fn lent_as(length: Option<usize>) -> String {
    length.map_or("a whole table".to_string(), |length| format!("a table of {length} bytes"))
}

fn make<U: Unit>(
    unit: &mut U,
    rng: &mut Rng,
    table: &mut Lent,
    input: &[u8],
    length: Option<usize>,
    tally: &mut Tally,
) -> Result<(), String> {
    let before = table.copy();
    let read = match length {
        Some(_) => Err(Fault::at(refusal::TABLE_SHORT, 0)),
        None => setup::whole(input),
    };
    let made = match length {
        Some(length) => unit.make(input, table.short(length)),
        None => unit.make(input, table.bytes()),
    };
    let expected = read.as_ref().map(|setup| setup.lanes.len() as u64).map_err(|fault| *fault);
    if made != expected {
        return Err(format!("the unit gave {made:?}, the rules {expected:?}"));
    }
    table.guarded()?;
    match read {
        Err(_) if !table.same(&before) => Err("a refused making changed the table".to_string()),
        Err(_) => Ok(()),
        Ok(setup) => {
            tally.setups_accepted += 1;
            same_contents(unit, rng, table, State::fresh(&setup), tally)
        }
    }
}

/// The table holds these contents, as far as the calls can show: it is looked at, now and then filled a little to
/// show its lanes' numbers, and drained.
fn same_contents<U: Unit>(
    unit: &mut U,
    rng: &mut Rng,
    table: &mut Lent,
    mut state: State,
    tally: &mut Tally,
) -> Result<(), String> {
    let mut calls = look_around(&state);
    let mut held = state.lanes.iter().map(|lane| lane.waiting.len()).sum::<usize>();
    if rng.once_in(2) {
        for lane in &state.lanes {
            let length = u64::from(lane.plan.longest);
            calls.push(Call::Put { lane: lane.plan.number, mark: 7, length });
            calls.push(Call::Put { lane: lane.plan.number, mark: 8, length: length + 1 });
            let (lane, train) = (lane.plan.number, rng.pick(&[1, 7, 7, 8]));
            calls.push(Call::PutTrain { lane, train, mark: 9, length: 1 });
            held += 2;
        }
        calls.extend(look_around(&state));
    }
    calls.extend((0..=held).map(|_| Call::Take));
    calls.extend(look_around(&state));
    for call in calls {
        let expected = state.answer(&call);
        let answer = unit.answer(table.bytes(), &call);
        tally.shown += 1;
        if answer != expected {
            return Err(format!("then {call}: the unit gave {answer}, the rules {expected}"));
        }
    }
    table.guarded()
}

/// Sessions for `run`, all on one lent table.
pub fn runs<U: Unit>(unit: &mut U, rng: &mut Rng, tally: &mut Tally) -> Result<(), Found> {
    let mut table = Lent::new(rng, unit.table_size());
    for _ in 0..SESSIONS {
        let input = sessions::session(rng);
        let limit = limit(rng, &input);
        let area = area(rng, limit);
        let length = lent_length(rng, unit.table_size());
        let shown_by =
            || vec![format!("run {} limit {limit}, area {area}, {}", hex(&input), lent_as(length))];
        let mut one = Session { input: &input, limit, area, length };
        one.run(unit, rng, &mut table, tally).map_err(|what| Found::new(what, shown_by()))?;
        tally.sessions += 1;
    }
    Ok(())
}

/// Limits near the number of requests that the session has, and at the edges of what is allowed.
fn limit(rng: &mut Rng, input: &[u8]) -> u64 {
    match rng.below(16) {
        0 => 0,
        1 => rng.between(1, 3),
        2..=5 => (session::walk(input, LIMIT).result.answered + rng.below(3)).saturating_sub(1),
        6 => {
            rng.pick(&[LIMIT + 1, LIMIT + 2, 65_536, 1 << 32, 1 << 58, (1 << 58) - 2, u64::MAX - 1, u64::MAX])
        }
        7 => LIMIT - 1,
        _ => LIMIT,
    }
}

/// An answer area's length: as much as 17 asks, one less, or anything near.
fn area(rng: &mut Rng, limit: u64) -> usize {
    let asked = usize::try_from(BYTES_PER_LINE * (u128::from(limit.min(LIMIT)) + 2)).expect("a small number");
    match rng.below(16) {
        0 => asked - 1,
        1 => asked - 64,
        2 => rng.index(asked),
        3 => asked + rng.index(200),
        _ => asked,
    }
}

struct Session<'a> {
    input: &'a [u8],
    limit: u64,
    area: usize,
    length: Option<usize>,
}

impl Session<'_> {
    fn run<U: Unit>(
        &mut self,
        unit: &mut U,
        rng: &mut Rng,
        table: &mut Lent,
        tally: &mut Tally,
    ) -> Result<(), String> {
        let size = unit.table_size();
        let expected = session::run(self.input, self.limit, self.length.unwrap_or(size), size, self.area);
        let before = table.copy();
        let fill = rng.byte();
        let mut answers = vec![fill; self.area];
        let result = match self.length {
            Some(length) => unit.run(self.input, self.limit, table.short(length), &mut answers),
            None => unit.run(self.input, self.limit, table.bytes(), &mut answers),
        };
        if result != expected.result {
            return Err(format!("the unit: {result}; the rules: {}", expected.result));
        }
        let (text, rest) = answers.split_at(expected.text.len());
        if text != expected.text.as_bytes() {
            let text = String::from_utf8_lossy(text);
            return Err(format!("the unit wrote:\n{text}the rules:\n{}", expected.text));
        }
        if rest.iter().any(|byte| *byte != fill) {
            return Err("answer bytes past the last line were written".to_string());
        }
        table.guarded()?;
        tally.requests += result.answered;
        tally.sessions_ended += u64::from(result.stop == Stop::End);
        match expected.state {
            None if !table.same(&before) => {
                Err("a run refused before its requests changed the table".to_string())
            }
            None => Ok(()),
            Some(state) => same_contents(unit, rng, table, state, tally),
        }
    }
}
