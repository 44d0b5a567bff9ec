//! Old tables, drawn at random.

use crate::gen::{caller::Caller, setups, tables};
use crate::layout::{old, old::THEN, NOW};
use crate::rng::Rng;
use crate::rules::State;

/// Calls of that time.
const CALLS: u64 = 240;

/// Bytes to be taken over, and how they came to be.
pub fn table(rng: &mut Rng) -> (Vec<u8>, Vec<String>) {
    let (mut bytes, form, how) = match rng.below(20) {
        0 => (tables::blank(rng, &THEN), &THEN, "noise"),
        // Longer, and other words mean something.
        1 => (tables::laid(rng, &NOW), &NOW, "a table of today's layout"),
        2..=8 => (tables::laid(rng, &THEN), &THEN, "a table laid at the edges"),
        _ => {
            let mut state = called(rng);
            state.back = tables::back(rng);
            (tables::written(rng, &THEN, &state), &THEN, "contents that calls made")
        }
    };
    let mut how = vec![how.to_string()];
    for _ in 0..rng.pick(&[0, 0, 1, 1, 2]) {
        how.push(tables::damage(rng, form, &mut bytes));
    }
    (bytes, how)
}

/// Contents that calls of that time made from a fresh table.
pub fn called(rng: &mut Rng) -> State {
    let mut state = State::fresh(&setups::plain(rng));
    let mut caller = Caller::new(rng);
    for _ in 0..rng.below(CALLS) {
        let call = caller.next(rng, &state);
        caller.heard(old::answer(&mut state, &call));
    }
    state
}
