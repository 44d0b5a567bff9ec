//! Settings pages offered to one table one after another: whole, of any edition, damaged, or noise. The table holds records or none, so that pages wait and are
//! replaced, or come into force at once.

use super::lent::Lent;
use super::lists::{look_around, reads_as};
use super::report::{hex, Found, Tally};
use crate::calls::Call;
use crate::gen::{caller::Caller, offers, setups};
use crate::pages::draw;
use crate::rng::Rng;
use crate::rules::State;
use crate::unit::Unit;

const PAGES: u64 = 64;

/// The case of this number, with other random numbers than those of the other comparisons.
pub fn one<U: Unit>(unit: &mut U, seed: u64, number: u64, tally: &mut Tally) -> Result<(), Found> {
    case(unit, &mut Rng::of_case(seed ^ 0x0040_0060_0000_0000, number), tally)
}

fn case<U: Unit>(unit: &mut U, rng: &mut Rng, tally: &mut Tally) -> Result<(), Found> {
    tally.cases += 1;
    let setup = setups::setup(rng);
    let bytes = setups::bytes(rng, &setup);
    let mut table = Lent::new(rng, unit.table_size());
    let mut calls = vec![];
    let found = |what: String, calls: &[Call]| {
        let made = [format!("make {}", hex(&bytes))];
        Found::new(what, made.into_iter().chain(calls.iter().map(|call| call.to_string())).collect())
    };
    if let Err(fault) = unit.make(&bytes, table.bytes()) {
        return Err(found(format!("a valid setup gave {fault}"), &calls));
    }
    let mut state = State::fresh(&setup);
    let mut caller = Caller::new(rng);
    for _ in 0..rng.pick(&[0, 0, 1, 12, 60]) {
        let call = caller.next(rng, &state);
        caller.heard(state.answer(&call));
        unit.answer(table.bytes(), &call);
        calls.push(call);
    }
    for _ in 0..PAGES {
        let call = match rng.below(3) {
            0 => Call::Offer(draw::page(rng).into()),
            _ => offers::offer(rng, &state),
        };
        calls.push(call.clone());
        offered(unit, &mut table, &mut state, &call, tally).map_err(|what| found(what, &calls))?;
    }
    let around = look_around(&state).into_iter().try_for_each(|call| {
        let (expected, answer) = (state.answer(&call), unit.answer(table.bytes(), &call));
        tally.shown += 1;
        if answer == expected {
            Ok(())
        } else {
            Err(format!("then {call}: the unit gave {answer}, the rules {expected}"))
        }
    });
    around.and_then(|()| reads_as(unit, &table, &state)).map_err(|what| found(what, &calls))
}

/// One page: the answer, and no byte is written where it is refused.
fn offered<U: Unit>(
    unit: &mut U,
    table: &mut Lent,
    state: &mut State,
    call: &Call,
    tally: &mut Tally,
) -> Result<(), String> {
    let expected = state.answer(call);
    if expected.refused() {
        table.keep();
    }
    let answer = unit.answer(table.bytes(), call);
    if answer != expected {
        return Err(format!("the unit gave {answer}, the rules {expected}"));
    }
    if !expected.refused() {
        table.wrote();
    } else if !table.as_kept() {
        return Err("a refused page changed the table".to_string());
    }
    table.guarded()?;
    tally.pages += 1;
    tally.offered(answer);
    Ok(())
}
