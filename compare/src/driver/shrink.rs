//! A list that shows a difference, made shorter: parts are left out as long as some difference stays.

use super::lists::Replayed;
use crate::calls::Call;

/// Replays at most; a list that takes more stays as long as it then is.
const REPLAYS: u32 = 3_000;

/// A shorter list and what differs at its end, or nothing if the list by itself shows no difference.
pub fn list(calls: Vec<Call>, differs: &mut impl FnMut(&[Call]) -> Option<Replayed>) -> Option<Replayed> {
    let mut best = differs(&calls)?;
    let mut part = best.0.len() / 2;
    let mut replays = 0;
    while part > 0 && replays < REPLAYS {
        let mut from = 0;
        let mut shorter = false;
        while from < best.0.len() && replays < REPLAYS {
            let kept: Vec<Call> = without(&best.0, from, part);
            replays += 1;
            match differs(&kept) {
                Some(found) => {
                    best = found;
                    shorter = true;
                }
                None => from += part,
            }
        }
        if !shorter || part > 1 {
            part /= 2;
        }
    }
    Some(best)
}

fn without<T>(calls: &[(Call, T)], from: usize, part: usize) -> Vec<Call> {
    let left_out = from..from + part;
    calls
        .iter()
        .enumerate()
        .filter(|(at, _)| !left_out.contains(at))
        .map(|(_, (call, _))| call.clone())
        .collect()
}
