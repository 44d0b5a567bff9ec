//! The rules: a train that is on the board has a line, and its last record. No line is kept for its own sake: a line is free if no train has it.

use std::collections::BTreeMap;

/// The journal holds so many trains.
pub const LINES: u8 = 64;

/// After this sequence nothing follows until a clear.
pub const LAST: u32 = 4_294_967_295;

pub mod refusal {
    pub const NOT_A_BOARD: u64 = 29;
    pub const KIND: u64 = 30;
    pub const FULL: u64 = 31;
    pub const SEQUENCE: u64 = 32;
    pub const FOLLOWS: u64 = 33;
    pub const NOT_CLEARED: u64 = 34;
}

/// A record, as a field carries it.
#[derive(Clone, Copy, Debug, PartialEq, Eq)]
pub struct Record {
    pub train: u32,
    pub cell: u16,
    /// 1 joined, 2 left; a field can carry any.
    pub kind: u8,
    pub sequence: u32,
}

pub const JOINED: u8 = 1;
pub const GONE: u8 = 2;

#[derive(Clone, Copy, Debug, PartialEq, Eq)]
pub struct Last {
    pub line: u8,
    pub cell: u16,
    pub joined: bool,
    pub sequence: u32,
}

/// The trains on the board.
#[derive(Clone, Debug, Default, PartialEq, Eq)]
pub struct Journal {
    pub trains: BTreeMap<u32, Last>,
}

impl Journal {
    pub fn lowest_free(&self) -> Option<u8> {
        (0..LINES).find(|line| self.trains.values().all(|last| last.line != *line))
    }

    /// The line that the record changes, or the number that refuses it.
    pub fn judge(&self, record: Record) -> Result<u8, u64> {
        if record.kind != JOINED && record.kind != GONE {
            return Err(refusal::KIND);
        }
        let Some(last) = self.trains.get(&record.train) else {
            let line = self.lowest_free().ok_or(refusal::FULL)?;
            return if record.kind == JOINED { Ok(line) } else { Err(refusal::FOLLOWS) };
        };
        if last.sequence.checked_add(1) != Some(record.sequence) {
            return Err(refusal::SEQUENCE);
        }
        let right = match record.kind {
            GONE => last.joined && last.cell == record.cell,
            _ => !last.joined,
        };
        if right {
            Ok(last.line)
        } else {
            Err(refusal::FOLLOWS)
        }
    }

    pub fn enter(&mut self, record: Record) -> Result<u8, u64> {
        let line = self.judge(record)?;
        let joined = record.kind == JOINED;
        self.trains.insert(record.train, Last { line, cell: record.cell, joined, sequence: record.sequence });
        Ok(line)
    }

    pub fn clear(&mut self, train: u32) -> Result<u8, u64> {
        match self.trains.get(&train) {
            Some(last) if !last.joined => {
                let line = last.line;
                self.trains.remove(&train);
                Ok(line)
            }
            _ => Err(refusal::NOT_CLEARED),
        }
    }

    pub fn at(&self, line: u8) -> Option<(u32, Last)> {
        self.trains.iter().find(|(_, last)| last.line == line).map(|(train, last)| (*train, *last))
    }
}
