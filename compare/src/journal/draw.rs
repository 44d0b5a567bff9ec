//! Random journals, fields, damage and calls.

use super::bytes::{field, LINE, SIZE};
use super::rules::{Journal, Last, Record, GONE, JOINED, LAST, LINES};
use crate::rng::Rng;

/// Trains are drawn from a pool, so that they meet again: numbers in a row, with equal low bits, or any.
pub fn pool(rng: &mut Rng) -> Vec<u32> {
    let count = rng.pick(&[1, 2, 5, 20, 63, 64, 65, 90]);
    let base = rng.word() as u32;
    let step = rng.pick(&[1, 64, 1 << 20]);
    let spread = rng.once_in(2);
    (0..count).map(|i: u32| if spread { rng.word() as u32 } else { base.wrapping_add(i * step) }).collect()
}

pub fn sequence(rng: &mut Rng) -> u32 {
    match rng.below(4) {
        0 => rng.below(3) as u32,
        1 => LAST - rng.below(4) as u32,
        _ => rng.word() as u32,
    }
}

/// The record that follows a train's last one, or a first one.
pub fn following(rng: &mut Rng, journal: &Journal, train: u32) -> Record {
    match journal.trains.get(&train) {
        None => Record { train, cell: rng.below(4) as u16, kind: JOINED, sequence: sequence(rng) },
        Some(last) => Record {
            train,
            cell: if last.joined { last.cell } else { rng.word() as u16 },
            kind: if last.joined { GONE } else { JOINED },
            sequence: last.sequence.wrapping_add(1),
        },
    }
}

/// One number of a record made another.
pub fn wrong(rng: &mut Rng, right: Record) -> Record {
    let mut record = right;
    match rng.below(6) {
        0 => record.kind = rng.pick(&[0, 1, 2, 3, 255]),
        1 => record.cell ^= 1 << rng.below(16),
        2 => record.sequence = record.sequence.wrapping_add(1),
        3 => record.sequence = record.sequence.wrapping_sub(1),
        4 => record.sequence = sequence(rng),
        _ => {
            record.kind = 3 - record.kind.clamp(1, 2);
            record.sequence = record.sequence.wrapping_add(rng.below(2) as u32);
        }
    }
    record
}

/// A field's bytes: whole, with more after it, cut, with another tag or length, or any bytes.
pub fn field_bytes(rng: &mut Rng, record: Record) -> Vec<u8> {
    let mut bytes = field(record);
    match rng.below(12) {
        0 => bytes.truncate(rng.index(14)),
        1 => bytes[0] = rng.pick(&[0x00, 0x20, 0x2F, 0x31, 0x40, 0x7F, 0xB0]),
        2 => bytes[1] = rng.pick(&[1, 128, 255]),
        3 => bytes[2] = rng.pick(&[0, 10, 12, 255]),
        4 => {
            let count = rng.index(20);
            bytes = rng.bytes(count);
        }
        5 | 6 => {
            let more = rng.index(30);
            bytes.extend(rng.bytes(more));
        }
        _ => {}
    }
    bytes
}

/// A journal that calls can make, with free lines anywhere.
pub fn journal(rng: &mut Rng, pool: &[u32]) -> Journal {
    let mut journal = Journal::default();
    let part = rng.pick(&[1, 2, 8, 64]);
    for line in 0..LINES {
        if part != 64 && rng.once_in(part) {
            continue;
        }
        let train = rng.pick(pool);
        let joined = rng.once_in(2);
        let sequence = sequence(rng).max(u32::from(!joined));
        let last = Last { line, cell: rng.word() as u16, joined, sequence };
        journal.trains.entry(train).or_insert(last);
    }
    journal
}

/// A board's bytes with something changed that may make it none.
pub fn damage(rng: &mut Rng, board: &mut [u8]) {
    let line = |rng: &mut Rng| LINE * rng.index(usize::from(LINES));
    match rng.below(8) {
        // A train on another line too.
        0 | 1 => {
            let (from, to) = (line(rng), line(rng));
            board.copy_within(from..from + 4, to);
            if rng.once_in(2) {
                board.copy_within(from..from + LINE, to);
            }
        }
        // Another kind.
        2 => board[line(rng) + 10] = rng.pick(&[0, 1, 2, 3, 128]),
        // A leave of sequence 0, or of 1.
        3 => {
            let at = line(rng);
            board[at + 4..at + 8].copy_from_slice(&[rng.below(2) as u8, 0, 0, 0]);
            board[at + 10] = GONE;
        }
        // A stray bit.
        4 => board[line(rng) + 11 + rng.index(5)] ^= 1 << rng.below(8),
        // A byte of any line.
        5 => board[rng.index(SIZE)] ^= 1 << rng.below(8),
        // A line that is wiped in part.
        6 => {
            let at = line(rng);
            let count = rng.index(LINE + 1);
            board[at..at + count].fill(0);
        }
        _ => {
            let at = rng.index(SIZE);
            board[at] = rng.byte();
        }
    }
}
