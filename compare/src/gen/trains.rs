//! Shared lanes of tables that no call made: trains, deficits and rounds at the edges of what is good, and faults in them.

use super::tables::held;
use crate::layout::trains::*;
use crate::layout::{length_byte, ring, set_word, setting, word, Form, SHARED_BIT};
use crate::numbers::{TRAINS, TRAIN_DEPTH};
use crate::rng::Rng;
use crate::rules::{Train, Trains, Waiting};

/// A shared lane that holds records, deficits mostly at an edge; a fault once in so many lanes.
pub fn waiting(rng: &mut Rng, longest: u64, faults: u64) -> Waiting {
    let mut round: Vec<u8> = (0..TRAINS).collect();
    for at in (1..round.len()).rev() {
        round.swap(at, rng.index(at + 1));
    }
    let count = rng.pick(&[1, 2, 2, 3, 8, 8]);
    round.truncate(count);
    let mut trains = vec![Train::default(); usize::from(TRAINS)];
    for (at, number) in round.iter().enumerate() {
        let most = TRAIN_DEPTH as u64;
        let count = if rng.once_in(3) { rng.pick(&[1, most - 1, most]) } else { rng.between(1, most) };
        let train = &mut trains[usize::from(*number)];
        train.queue = (0..count).map(|_| held(rng, longest)).collect();
        let first = train.queue[0].length;
        let (least, end) = if at == 0 { (first, 2 * longest) } else { (0, first) };
        train.deficit = match rng.below(4) {
            _ if rng.once_in(faults) => rng.pick(&[least.saturating_sub(1), end, end + 1]),
            0 => least,
            1 | 2 => end - 1,
            _ => rng.between(least, end - 1),
        };
    }
    Waiting::Shared(Trains { trains, round: round.into() })
}

/// One fault or change in a shared lane's words, told in words; some leave the table good.
pub fn damage(rng: &mut Rng, form: &Form, bytes: &mut [u8], lane: u8) -> String {
    let some: Vec<u8> = (0..TRAINS).filter(|train| count_of(number(bytes, lane, *train)) > 0).collect();
    let turn = round(bytes, lane).and_then(|round| round.front().copied()).unwrap_or(0);
    let any = rng.below(TRAINS.into()) as u8;
    let holder = if some.is_empty() { any } else { rng.pick(&some) };
    let train = rng.pick(&[turn, turn, holder, holder, any]);
    let old = number(bytes, lane, train);
    let first = old % 8;
    let (count, deficit) = (count_of(old) as u32, deficit_of(old) as u32);
    let longest = (word(bytes, setting(lane)) & 0xFFFF) as u32;
    let place = place_of(train, first.into());
    let length = (form.record)(bytes, lane, place).length.min(65_536) as u32;
    let new = match rng.below(14) {
        // The deficit at each edge.
        0..=3 => {
            let twice = 2 * longest.max(1);
            let edges =
                [0, 1, length - 1, length - 1, length, length, length + 1, twice - 1, twice, twice + 1];
            number_of(first, count, rng.pick(&edges))
        }
        // How many records, with or without the row.
        4 | 12 | 13 => {
            let other = rng.pick(&[0, 1, 7, 8, 9, 9, 9, 9, 15, count + 1, count.saturating_sub(1)]) % 16;
            if !rng.once_in(4) {
                let row = word(bytes, ring(lane));
                let total = (row / form.depth).wrapping_sub(count.into()).wrapping_add(other.into());
                set_word(bytes, ring(lane), row % form.depth + form.depth * (total % 128));
            }
            number_of(first, other, deficit)
        }
        // Another first place: other records of the same number.
        5 => number_of(rng.below(8) as u32, count, deficit),
        6 => old ^ 1 << rng.below(32),
        7 => {
            // The first record at an edge of what the deficit covers.
            let edges = [1, deficit.max(1), deficit + 1, deficit.saturating_sub(1).max(1), longest.max(1)];
            let length = rng.pick(&edges).min(65_536);
            let less = (length - 1) as u16;
            let at = length_byte(lane, place);
            bytes[at..at + 2].copy_from_slice(&less.to_le_bytes());
            return format!("the first record of lane {lane}'s train {train} has {length} bytes");
        }
        8 => {
            let row = word(bytes, ring(lane));
            let total = row / form.depth;
            let other = rng.pick(&[0, 1, total.wrapping_add(1), total.wrapping_sub(1), 64, 65]);
            set_word(bytes, ring(lane), (row % form.depth).wrapping_add(form.depth.wrapping_mul(other)));
            return format!("the row of lane {lane} counts {other}");
        }
        9 => {
            set_word(bytes, setting(lane), word(bytes, setting(lane)) ^ SHARED_BIT);
            return format!("lane {lane} is shared or not any more");
        }
        _ => return round_near(rng, bytes, lane),
    };
    set_number(bytes, lane, train, new);
    format!("lane {lane}'s train {train} = {new:#x}")
}

/// Another round: exchanged, a train left out, twice or added, none that there is, another count, or stray bits.
fn round_near(rng: &mut Rng, bytes: &mut [u8], lane: u8) -> String {
    let old = word(bytes, round_word(lane));
    let mut trains: Vec<u8> = round(bytes, lane).unwrap_or_default().into();
    let at = rng.index(trains.len().max(1));
    let any = rng.below(16) as u8;
    let new = match rng.below(9) {
        0 => old ^ 1 << rng.below(64),
        1 => old ^ 1 << rng.between(32, 40),
        2 => old | 1 << rng.below(32),
        3 => {
            let named = rng.pick(&[0, 1, 7, 8, 9, 16]);
            old & 0xFFFF_FFFF | named << 32
        }
        kind => {
            match kind {
                _ if trains.is_empty() => trains.push(any),
                4 => trains.rotate_left(1),
                5 => drop(trains.remove(at)),
                6 => trains.insert(at, any),
                7 => trains[at] = any,
                _ => {
                    let again = trains[at];
                    trains.push(again);
                }
            }
            trains.truncate(8);
            round_of(&trains.into())
        }
    };
    set_word(bytes, round_word(lane), new);
    format!("lane {lane}'s round = {new:#x}")
}
