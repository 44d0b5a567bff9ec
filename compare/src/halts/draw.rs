//! The halt's setup, setups beside it, and tables of them.

use super::LANES;
use crate::gen::{caller::Caller, damage, setups, tables};
use crate::layout::NOW;
use crate::pages::Page;
use crate::rng::Rng;
use crate::rules::State;
use crate::setup::Setup;

/// Calls that make a table's contents.
const CALLS: u64 = 160;

/// The halt's setup, in either format.
pub fn halt(rng: &mut Rng) -> Setup {
    Setup { format: rng.between(1, 2) as u16, framing: 0, lanes: LANES.to_vec() }
}

/// A good setup that is off in one thing.
pub fn beside(rng: &mut Rng) -> Setup {
    let mut setup = halt(rng);
    let at = rng.index(4);
    let lanes = &mut setup.lanes;
    match rng.below(12) {
        0 => lanes[at].weight -= 1,
        1 => {
            lanes[at].weight -= 1;
            lanes[(at + 1) % 4].weight += 1;
        }
        2 => lanes[at].longest = rng.pick(&[255, 257, 64, 576, 1_500]),
        3 => setup.framing = rng.pick(&[1, 64]),
        4 => lanes[at].shared = true,
        // The same weights in other lanes.
        5 => lanes[3].number = rng.pick(&[4, 5, 63]),
        6 => (at..4).for_each(|lane| lanes[lane].number += 1),
        // The weights in another order.
        7 => {
            let (a, b) = (lanes[0].weight, lanes[at].weight);
            (lanes[0].weight, lanes[at].weight) = (b, a);
        }
        // The last lane's weight is parted, and one more lane has the other part.
        8 => {
            let mut more = lanes[3];
            more.number = rng.pick(&[4, 8, 63]);
            more.weight = rng.pick(&[1, 64]);
            lanes[3].weight -= more.weight;
            lanes.push(more);
        }
        9 => drop(lanes.remove(at)),
        // A longest that may be left unsaid.
        10 => {
            let unsaid = crate::numbers::longest_unsaid(setup.format);
            setup.lanes.iter_mut().for_each(|lane| lane.longest = unsaid);
        }
        _ => lanes.iter_mut().for_each(|lane| lane.weight /= 2),
    }
    setup
}

/// The halt's setup, one beside it, or any.
pub fn setup(rng: &mut Rng) -> Setup {
    match rng.below(8) {
        0..=3 => halt(rng),
        4..=6 => beside(rng),
        _ => setups::setup(rng),
    }
}

/// A setup's bytes: a framing number of 0 is written out now and then; one lane more than the weights allow; damaged.
pub fn input(rng: &mut Rng) -> Vec<u8> {
    let setup = setup(rng);
    let mut fields = setups::fields(rng, &setup);
    match rng.below(8) {
        0 => damage::setup(rng, fields),
        1 => {
            let last = fields.len() - 1;
            fields.insert(last, vec![crate::setup::LANE, 0, 5, 63, 0, 1, 1, 0]);
            fields.concat()
        }
        _ => fields.concat(),
    }
}

/// A table of such a setup, that calls made; with an edition that was taken, with a page that waits, and damaged now and then.
pub fn table(rng: &mut Rng) -> (Vec<u8>, Vec<String>) {
    let setup = setup(rng);
    let mut state = State::fresh(&setup);
    let any = rng.below(65_535) as u16;
    state.edition = rng.pick(&[0, 0, 1, 65_534, any]);
    let mut caller = Caller::new(rng);
    for _ in 0..rng.below(CALLS) {
        let call = caller.next(rng, &state);
        caller.heard(state.answer(&call));
    }
    state.back = tables::back(rng);
    let mut how = vec![format!("a table of {setup:?}, edition {}", state.edition)];
    if state.holding().next().is_some() && rng.once_in(4) {
        let page = Page { edition: state.edition + 1, setup: self::setup(rng) };
        how.push(format!("{page:?} waits"));
        state.page = Some(page);
    }
    let mut bytes = tables::written(rng, &NOW, &state);
    if rng.once_in(5) {
        how.push(tables::damage(rng, &NOW, &mut bytes));
    }
    (bytes, how)
}
