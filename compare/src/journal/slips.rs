//! The reference's calls with one mistake each. The comparison must find every one.

use super::bytes::{read, read_field, write, Reference, SIZE};
use super::rules::{Journal, Last, Record, GONE, JOINED, LAST, LINES};
use super::{Desk, Refused, Shown};

#[derive(Clone, Copy, Debug, PartialEq, Eq)]
pub enum Slip {
    None,
    /// The first free line after the last used one, and the lowest only where there is none.
    LineAfterLast,
    /// 0 follows 4,294,967,295.
    SequenceWraps,
    /// A leave of any cell is taken.
    LeaveFromAnyCell,
    /// A board with a free line below a used one is not taken for one.
    HoleRefused,
    /// A leave of sequence 0 is taken for a line.
    LeaveOfNothing,
    /// A train on two lines is not seen.
    TrainTwice,
    /// Bits that no number has are not seen.
    StrayBits,
    /// 33 before 32.
    FollowsBeforeTurn,
    /// 33 before 31 for a new train's leave.
    LeaveBeforeFull,
    /// The field is looked at before the board.
    FieldBeforeBoard,
    /// Bytes after the field are refused.
    MoreThanTheField,
    /// A train that is still joined is cleared.
    ClearsJoined,
    /// A cleared line keeps its train's number.
    ClearLeavesTrain,
    /// A refused record writes its line.
    RefusalWrites,
    /// Beginning leaves the last line.
    BeginLeavesLine,
    /// Beginning writes past the board.
    BeginWritesOn,
    /// Only 63 lines are used.
    RoomFor63,
}

pub const ALL: &[Slip] = &[
    Slip::LineAfterLast,
    Slip::SequenceWraps,
    Slip::LeaveFromAnyCell,
    Slip::HoleRefused,
    Slip::LeaveOfNothing,
    Slip::TrainTwice,
    Slip::StrayBits,
    Slip::FollowsBeforeTurn,
    Slip::LeaveBeforeFull,
    Slip::FieldBeforeBoard,
    Slip::MoreThanTheField,
    Slip::ClearsJoined,
    Slip::ClearLeavesTrain,
    Slip::RefusalWrites,
    Slip::BeginLeavesLine,
    Slip::BeginWritesOn,
    Slip::RoomFor63,
];

pub struct Slipped(pub Slip);

impl Slipped {
    fn board(&self, board: &[u8]) -> Result<Journal, Refused> {
        let refused = Err(Refused::by(29));
        match (self.0, read(board)) {
            (Slip::HoleRefused, Some(journal)) => {
                let used = journal.trains.len();
                if journal.trains.values().any(|last| usize::from(last.line) >= used) {
                    refused
                } else {
                    Ok(journal)
                }
            }
            (_, Some(journal)) => Ok(journal),
            (slip @ (Slip::LeaveOfNothing | Slip::StrayBits | Slip::TrainTwice), None)
                if board.len() >= SIZE =>
            {
                let mut mended = board[..SIZE].to_vec();
                let mut seen = vec![];
                for line in mended.chunks_exact_mut(16) {
                    if slip == Slip::StrayBits && line[10] != 0 {
                        line[11..].fill(0);
                    }
                    if slip == Slip::LeaveOfNothing && line[10] == GONE && line[4..8] == [0; 4] {
                        line[4] = 1;
                    }
                    if slip == Slip::TrainTwice && line[10] != 0 {
                        if seen.contains(&line[..4].to_vec()) {
                            line.fill(0);
                        } else {
                            seen.push(line[..4].to_vec());
                        }
                    }
                }
                read(&mended).map_or(refused, Ok)
            }
            _ => refused,
        }
    }

    fn judge(&self, journal: &Journal, record: Record) -> Result<u8, u64> {
        let right = journal.judge(record);
        let known = record.kind == JOINED || record.kind == GONE;
        let last = journal.trains.get(&record.train);
        match (self.0, last, right) {
            (Slip::LineAfterLast, None, Ok(line)) => {
                let used = journal.trains.values().map(|last| last.line).max();
                Ok(used.map(|used| used + 1).filter(|next| *next < LINES).unwrap_or(line))
            }
            (Slip::RoomFor63, None, Ok(63)) => Err(31),
            (Slip::LeaveBeforeFull, None, Err(31)) if record.kind == GONE => Err(33),
            (Slip::SequenceWraps, Some(last), Err(32)) if last.sequence == LAST && record.sequence == 0 => {
                if last.joined == (record.kind == GONE) && (!last.joined || last.cell == record.cell) {
                    Ok(last.line)
                } else {
                    Err(33)
                }
            }
            (Slip::LeaveFromAnyCell, Some(last), Err(33)) if last.joined && record.kind == GONE => {
                Ok(last.line)
            }
            (Slip::FollowsBeforeTurn, Some(last), Err(32)) if known => {
                let follows = match record.kind {
                    GONE => last.joined && last.cell == record.cell,
                    _ => !last.joined,
                };
                Err(if follows { 32 } else { 33 })
            }
            (_, _, right) => right,
        }
    }
}

impl Desk for Slipped {
    fn begin(&mut self, board: &mut [u8]) -> Result<(), Refused> {
        let kept = board.get(SIZE - 16..SIZE).map(<[u8]>::to_vec);
        Reference.begin(board)?;
        if self.0 == Slip::BeginLeavesLine {
            board[SIZE - 16..SIZE].copy_from_slice(&kept.expect("a whole board"));
        }
        if self.0 == Slip::BeginWritesOn && board.len() > SIZE {
            board[SIZE] ^= 1;
        }
        Ok(())
    }

    fn record(&mut self, board: &mut [u8], field: &[u8]) -> Result<u64, Refused> {
        if self.0 == Slip::FieldBeforeBoard {
            read_field(field)?;
        }
        let mut journal = self.board(board)?;
        let record = read_field(field)?;
        if self.0 == Slip::MoreThanTheField && field.len() > 14 {
            return Err(Refused::at(3, 0));
        }
        match self.judge(&journal, record) {
            Ok(line) => {
                let joined = record.kind == JOINED;
                let last = Last { line, cell: record.cell, joined, sequence: record.sequence };
                journal.trains.insert(record.train, last);
                write(&journal, board);
                Ok(u64::from(line))
            }
            Err(number) => {
                if self.0 == Slip::RefusalWrites {
                    if let Some(last) = journal.trains.get(&record.train) {
                        board[16 * usize::from(last.line) + 8] ^= 1;
                    }
                }
                Err(Refused::by(number))
            }
        }
    }

    fn clear(&mut self, board: &mut [u8], train: u32) -> Result<u64, Refused> {
        let mut journal = self.board(board)?;
        if self.0 == Slip::ClearsJoined {
            if let Some(last) = journal.trains.get_mut(&train) {
                last.joined = false;
            }
        }
        let line = journal.clear(train).map_err(Refused::by)?;
        write(&journal, board);
        if self.0 == Slip::ClearLeavesTrain {
            board[16 * usize::from(line)..][..4].copy_from_slice(&train.to_le_bytes());
        }
        Ok(u64::from(line))
    }

    fn line(&mut self, board: &mut [u8], line: u8) -> Result<Option<Shown>, Refused> {
        let journal = self.board(board)?;
        let mut copy = board.to_vec();
        write(&journal, &mut copy);
        Reference.line(&mut copy, line)
    }
}
