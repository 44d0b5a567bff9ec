//! A shared lane's words: the round's number, and a number for each train (docs/TABLE.md, "Shared lanes").

use super::{record_in, set_word, word, Clause, Form, Reading};
use crate::numbers::{TRAINS, TRAIN_DEPTH};
use crate::rules::{Lane, Record, Train, Trains};
use std::collections::VecDeque;

/// The word of the round: the trains' numbers by four bits each, the one in turn lowest, and from 2^32 on how many they are.
pub fn round_word(lane: u8) -> usize {
    super::setting(lane) + 3
}

/// A train's number: the first of its eight places, 8 times how many records it holds, 128 times its deficit.
pub fn train_byte(lane: u8, train: u8) -> usize {
    61_440 + 32 * usize::from(lane) + 4 * usize::from(train)
}

pub fn number(bytes: &[u8], lane: u8, train: u8) -> u32 {
    u32::from_le_bytes(bytes[train_byte(lane, train)..][..4].try_into().expect("four bytes"))
}

pub fn set_number(bytes: &mut [u8], lane: u8, train: u8, number: u32) {
    bytes[train_byte(lane, train)..][..4].copy_from_slice(&number.to_le_bytes());
}

pub fn number_of(first: u32, count: u32, deficit: u32) -> u32 {
    first + 8 * count + 128 * deficit
}

pub fn first_of(number: u32) -> u64 {
    u64::from(number % 8)
}

pub fn count_of(number: u32) -> u64 {
    u64::from(number / 8 % 16)
}

pub fn deficit_of(number: u32) -> u64 {
    u64::from(number / 128)
}

/// Which of the lane's 64 places is a train's place, counted on past its eighth.
pub fn place_of(train: u8, place: u64) -> u64 {
    TRAIN_DEPTH as u64 * u64::from(train) + place % TRAIN_DEPTH as u64
}

/// The trains that the round's word names, if it names trains and nothing stands behind them.
pub fn round(bytes: &[u8], lane: u8) -> Option<VecDeque<u8>> {
    let word = word(bytes, round_word(lane));
    let (named, order) = (word >> 32, word & 0xFFFF_FFFF);
    if named > u64::from(TRAINS) || order >> (4 * named) != 0 {
        return None;
    }
    let trains: VecDeque<u8> = (0..named).map(|at| (order >> (4 * at) & 15) as u8).collect();
    trains.iter().all(|train| *train < TRAINS).then_some(trains)
}

pub fn round_of(round: &VecDeque<u8>) -> u64 {
    let order = round.iter().rev().fold(0, |order, train| order << 4 | u64::from(*train));
    order | (round.len() as u64) << 32
}

/// What waits in a shared lane whose row counts so many records, and at least one; nothing where no first record can be told.
pub fn read(
    form: &Form,
    bytes: &[u8],
    lane: u8,
    longest: u64,
    count: u64,
    reading: &mut Reading,
) -> Option<Trains> {
    let numbers: Vec<u32> = (0..TRAINS).map(|train| number(bytes, lane, train)).collect();
    let held: u64 = numbers.iter().map(|number| count_of(*number)).sum();
    reading.breaks(Clause::TrainsCounted, held != count);
    let over = numbers.iter().any(|number| count_of(*number) > TRAIN_DEPTH as u64);
    reading.breaks(Clause::TrainRecords, over);
    let round = round(bytes, lane);
    reading.breaks(Clause::Round, round.is_none());
    let round = round.unwrap_or_default();
    let mut trains = vec![];
    for (train, number) in (0..TRAINS).zip(numbers) {
        let record = |place: u64| record_in(form, bytes, lane, place_of(train, first_of(number) + place));
        let queue: VecDeque<Record> = (0..count_of(number)).map(record).collect();
        let deficit = deficit_of(number);
        let named = round.iter().filter(|named| **named == train).count();
        reading.breaks(Clause::Round, named != usize::from(!queue.is_empty()));
        match queue.front() {
            None => reading.breaks(Clause::EmptyDeficit, deficit != 0),
            Some(first) if round.front() == Some(&train) => {
                reading.breaks(Clause::TurnCovers, deficit < first.length);
                reading.breaks(Clause::TurnBelow, deficit >= 2 * longest);
            }
            Some(first) => reading.breaks(Clause::OthersBelow, deficit >= first.length),
        }
        trains.push(Train { deficit, queue });
    }
    let turn = usize::from(*round.front()?);
    (!over && !trains[turn].queue.is_empty()).then_some(Trains { trains, round })
}

/// Writes the words of a shared lane that holds records. A train's places begin where the bytes have it.
pub fn write(form: &Form, lane: &Lane, trains: &Trains, bytes: &mut [u8]) {
    let at = lane.plan.number;
    set_word(bytes, round_word(at), round_of(&trains.round));
    for (train, held) in (0..TRAINS).zip(&trains.trains) {
        let first = number(bytes, at, train) % 8;
        let deficit = u32::try_from(held.deficit).expect("a small deficit");
        set_number(bytes, at, train, number_of(first, held.queue.len() as u32, deficit));
        for (place, record) in (u64::from(first)..).zip(&held.queue) {
            (form.set_record)(bytes, at, place_of(train, place), *record);
        }
        let free = held.queue.len() as u64..TRAIN_DEPTH as u64;
        for place in free {
            form.fit(bytes, lane, place_of(train, u64::from(first) + place));
        }
    }
}
