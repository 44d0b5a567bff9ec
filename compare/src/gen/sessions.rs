//! Sessions: a setup and requests as a caller makes them, whole or damaged, or bytes with no sense at all.

use crate::calls::Call;
use crate::gen::caller::Caller;
use crate::gen::{damage, setups};
use crate::numbers::PROGRAM_INPUT;
use crate::rng::Rng;
use crate::rules::State;
use crate::session::*;

/// The request's field. A length over 16 bits cannot be said in a session and becomes 65,535.
pub fn request(call: Call) -> Vec<u8> {
    match call {
        Call::Put { lane, mark, length } => {
            let length = u16::try_from(length).unwrap_or(u16::MAX);
            [&[PUT, 0, 7, lane][..], &mark.to_be_bytes(), &length.to_be_bytes()].concat()
        }
        Call::PutTrain { lane, train, mark, length } => {
            let length = u16::try_from(length).unwrap_or(u16::MAX);
            [&[PUT_TRAIN, 0, 8, lane, train][..], &mark.to_be_bytes(), &length.to_be_bytes()].concat()
        }
        Call::Take => vec![TAKE, 0, 0],
        Call::Look => vec![LOOK, 0, 0],
        Call::Sets => vec![SETS, 0, 0],
        Call::Lag { lane } => vec![LAG, 0, 1, lane],
        Call::Restart => vec![RESTART, 0, 0],
        Call::Offer(_) => unreachable!("offering is no request"),
    }
}

/// A valid session of `count` requests, field by field.
pub fn fields(rng: &mut Rng, count: usize) -> Vec<Vec<u8>> {
    let setup = setups::setup(rng);
    let mut fields = setups::fields(rng, &setup);
    let mut state = State::fresh(&setup);
    let mut caller = Caller::new(rng);
    for _ in 0..count {
        let call = caller.next(rng, &state);
        caller.heard(state.answer(&call));
        fields.push(request(call));
    }
    fields.push(vec![END, 0, 0]);
    fields
}

fn count(rng: &mut Rng) -> usize {
    match rng.below(10) {
        0 => 0,
        1 => rng.index(4),
        2 => rng.between(995, 1_005) as usize,
        _ => rng.index(120),
    }
}

/// A session's bytes.
pub fn session(rng: &mut Rng) -> Vec<u8> {
    let count = count(rng);
    let mut fields = fields(rng, count);
    match rng.below(8) {
        0..=2 => fields.concat(),
        3 | 4 => {
            damage::fields(rng, &mut fields);
            fields.concat()
        }
        5 | 6 => {
            let mut bytes = fields.concat();
            damage::bytes(rng, &mut bytes);
            bytes
        }
        _ => damage::noise(rng),
    }
}

/// A session for the program: now and then at the edge of its input's room.
pub fn for_program(rng: &mut Rng) -> Vec<u8> {
    let mut bytes = session(rng);
    if rng.once_in(12) {
        let length = rng.pick(&[PROGRAM_INPUT - 1, PROGRAM_INPUT, PROGRAM_INPUT + 1, PROGRAM_INPUT + 9_000]);
        if rng.once_in(2) {
            // More requests than the limit, so that the walk ends at the limit and not at the padding.
            let count = 1_000 + rng.index(3);
            bytes = fields(rng, count).concat();
        }
        let padding = if rng.once_in(2) { rng.byte() } else { END };
        bytes.resize(length, padding);
    }
    bytes
}
