//! Boards and fields in bytes, and the calls on lent bytes.

use super::rules::{refusal, Journal, Last, Record, GONE, JOINED, LINES};
use super::{Desk, Refused, Shown};

/// A line has 16 bytes: train and sequence (4 each), cell (2), kind (1), each low byte first; five bytes of 0.
pub const LINE: usize = 16;
pub const SIZE: usize = LINE * LINES as usize;

const TAG: u8 = 0x30;
const VALUE: usize = 11;

/// The journal of a board, if calls can make it: what stands on a used line can have come by a join, or by a join and a leave.
pub fn read(board: &[u8]) -> Option<Journal> {
    let mut journal = Journal::default();
    for (line, bytes) in (0..LINES).zip(board.get(..SIZE)?.chunks_exact(LINE)) {
        let (numbers, rest) = bytes.split_at(11);
        if bytes.iter().all(|byte| *byte == 0) {
            continue;
        }
        let number = |at: usize, count: usize| {
            numbers[at..at + count].iter().rev().fold(0u32, |sum, byte| sum << 8 | u32::from(*byte))
        };
        let joined = match numbers[10] {
            JOINED => true,
            GONE => false,
            _ => return None,
        };
        let last = Last { line, cell: number(8, 2) as u16, joined, sequence: number(4, 4) };
        let comes_about = joined || last.sequence > 0;
        let new = journal.trains.insert(number(0, 4), last).is_none();
        if !comes_about || !new || rest.iter().any(|byte| *byte != 0) {
            return None;
        }
    }
    Some(journal)
}

/// Writes a board; bytes past it stay.
pub fn write(journal: &Journal, board: &mut [u8]) {
    board[..SIZE].fill(0);
    for (train, last) in &journal.trains {
        let bytes = &mut board[LINE * usize::from(last.line)..][..LINE];
        bytes[..4].copy_from_slice(&train.to_le_bytes());
        bytes[4..8].copy_from_slice(&last.sequence.to_le_bytes());
        bytes[8..10].copy_from_slice(&last.cell.to_le_bytes());
        bytes[10] = if last.joined { JOINED } else { GONE };
    }
}

/// The record of the field at the start of these bytes: 1 for its header, 2, 3, 1 for its value.
pub fn read_field(bytes: &[u8]) -> Result<Record, Refused> {
    let &[tag, high, low, ref rest @ ..] = bytes else { return Err(Refused::at(1, 0)) };
    if tag != TAG {
        return Err(Refused::at(2, 0));
    }
    if usize::from(u16::from_be_bytes([high, low])) != VALUE {
        return Err(Refused::at(3, 0));
    }
    let &[a, b, c, d, e, f, kind, g, h, i, j, ..] = rest else { return Err(Refused::at(1, 0)) };
    Ok(Record {
        train: u32::from_be_bytes([a, b, c, d]),
        cell: u16::from_be_bytes([e, f]),
        kind,
        sequence: u32::from_be_bytes([g, h, i, j]),
    })
}

pub fn field(record: Record) -> Vec<u8> {
    let mut bytes = vec![TAG, 0, VALUE as u8];
    bytes.extend(record.train.to_be_bytes());
    bytes.extend(record.cell.to_be_bytes());
    bytes.push(record.kind);
    bytes.extend(record.sequence.to_be_bytes());
    bytes
}

/// The calls as this program has them.
#[derive(Default)]
pub struct Reference;

fn known(board: &[u8]) -> Result<Journal, Refused> {
    read(board).ok_or(Refused::by(refusal::NOT_A_BOARD))
}

impl Desk for Reference {
    fn begin(&mut self, board: &mut [u8]) -> Result<(), Refused> {
        if board.len() < SIZE {
            return Err(Refused::at(7, 0));
        }
        write(&Journal::default(), board);
        Ok(())
    }

    fn record(&mut self, board: &mut [u8], field: &[u8]) -> Result<u64, Refused> {
        let mut journal = known(board)?;
        let line = journal.enter(read_field(field)?).map_err(Refused::by)?;
        write(&journal, board);
        Ok(u64::from(line))
    }

    fn clear(&mut self, board: &mut [u8], train: u32) -> Result<u64, Refused> {
        let mut journal = known(board)?;
        let line = journal.clear(train).map_err(Refused::by)?;
        write(&journal, board);
        Ok(u64::from(line))
    }

    fn line(&mut self, board: &mut [u8], line: u8) -> Result<Option<Shown>, Refused> {
        Ok(known(board)?.at(line).map(|(train, last)| Shown {
            kind: if last.joined { 1 } else { 2 },
            train: u64::from(train),
            cell: u64::from(last.cell),
            sequence: u64::from(last.sequence),
        }))
    }
}
