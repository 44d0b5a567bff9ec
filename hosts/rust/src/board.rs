//! The desk's board: which train is in which cell (docs/DESK.md).

use crate::boundary::board as calls;
use std::fmt;

/// The fixed size of a board in bytes.
pub const BOARD_SIZE: usize = 1_024;

/// The lines of a board.
pub const LINES: u8 = 64;

/// The board size as the library has it; [`BOARD_SIZE`].
pub fn board_size() -> u64 {
    calls::size()
}

/// Whether a train joined a cell or left it.
#[derive(Clone, Copy, Debug, PartialEq, Eq)]
pub enum Kind {
    /// 1
    Joined,
    /// 2
    Left,
}

/// A handover record: what a field says, and what stands on a line.
#[derive(Clone, Copy, Debug, PartialEq, Eq)]
pub struct Handover {
    /// The train's number.
    pub train: u32,
    /// The cell that it joined or left.
    pub cell: u16,
    /// Joined or left.
    pub kind: Kind,
    /// The train's own count of its records.
    pub sequence: u32,
}

impl Handover {
    /// The record as a field: tag 0x30, length 11, value; high byte first.
    pub fn field(&self) -> [u8; 14] {
        let mut field = [0x30, 0, 11, 0, 0, 0, 0, 0, 0, 0, 0, 0, 0, 0];
        field[3..7].copy_from_slice(&self.train.to_be_bytes());
        field[7..9].copy_from_slice(&self.cell.to_be_bytes());
        field[9] = match self.kind {
            Kind::Joined => 1,
            Kind::Left => 2,
        };
        field[10..14].copy_from_slice(&self.sequence.to_be_bytes());
        field
    }
}

/// Why a call of the board was refused. The board stays as it was.
#[derive(Clone, Copy, Debug, PartialEq, Eq)]
pub enum BoardRefusal {
    /// 1: the field runs past the bytes' end.
    Cut,
    /// 2: the field's tag is not 0x30.
    UnknownTag,
    /// 3: the field's length is not 11.
    WrongLength,
    /// 29: no calls make this board from an empty one.
    NotABoard,
    /// 30: kind neither joined nor left.
    KindUnknown,
    /// 31: a new train, and all lines are used.
    NoFreeLine,
    /// 32: not the train's next sequence.
    OutOfTurn,
    /// 33: cell or kind does not follow the train's last record.
    DoesNotFollow,
    /// 34: the train is not on the board, or its last record is a join.
    NotCleared,
}

impl BoardRefusal {
    /// The number, as in `include/zenfrosta.h`.
    pub fn number(self) -> u64 {
        match self {
            BoardRefusal::Cut => 1,
            BoardRefusal::UnknownTag => 2,
            BoardRefusal::WrongLength => 3,
            BoardRefusal::NotABoard => 29,
            BoardRefusal::KindUnknown => 30,
            BoardRefusal::NoFreeLine => 31,
            BoardRefusal::OutOfTurn => 32,
            BoardRefusal::DoesNotFollow => 33,
            BoardRefusal::NotCleared => 34,
        }
    }

    fn of(number: u64) -> BoardRefusal {
        use BoardRefusal::*;
        [
            Cut,
            UnknownTag,
            WrongLength,
            NotABoard,
            KindUnknown,
            NoFreeLine,
            OutOfTurn,
            DoesNotFollow,
            NotCleared,
        ]
        .into_iter()
        .find(|refusal| refusal.number() == number)
        .expect(
            "7 and 255 are for short areas, and this module lends none; the library gives no other number",
        )
    }
}

impl fmt::Display for BoardRefusal {
    fn fmt(&self, f: &mut fmt::Formatter<'_>) -> fmt::Result {
        let words = match self {
            BoardRefusal::Cut => "the field is cut",
            BoardRefusal::UnknownTag => "the field is no handover record: its tag is not 0x30",
            BoardRefusal::WrongLength => "the field's length is not 11",
            BoardRefusal::NotABoard => "the bytes are no board that these calls make",
            BoardRefusal::KindUnknown => "the kind is neither 1 (joined) nor 2 (left)",
            BoardRefusal::NoFreeLine => "a new train, and all 64 lines are used",
            BoardRefusal::OutOfTurn => "the sequence is not the train's last one plus 1",
            BoardRefusal::DoesNotFollow => "the cell or the kind does not follow the train's last record",
            BoardRefusal::NotCleared => "the train is not on the board, or it has not left its cell",
        };
        write!(f, "refused with {}: {words}", self.number())
    }
}

impl std::error::Error for BoardRefusal {}

/// The words of an answer, or the refusal.
fn answer((result, words): crate::boundary::Told) -> Result<[u64; 4], BoardRefusal> {
    match result {
        0 => Ok(words),
        number => Err(BoardRefusal::of(number)),
    }
}

/// A board that begins empty. Its bytes may be kept and taken up again.
#[derive(Clone, Debug, PartialEq, Eq)]
pub struct Board {
    bytes: [u8; BOARD_SIZE],
}

impl Board {
    /// An empty board.
    pub fn new() -> Board {
        let mut board = Board { bytes: [0; BOARD_SIZE] };
        answer(calls::begin(&mut board.bytes)).expect("a board of full size is begun");
        board
    }

    /// A board from bytes that were kept; refused with 29 where they are none.
    pub fn from_bytes(bytes: [u8; BOARD_SIZE]) -> Result<Board, BoardRefusal> {
        answer(calls::line(&bytes, 0))?;
        Ok(Board { bytes })
    }

    /// The board's bytes, to be kept.
    pub fn as_bytes(&self) -> &[u8; BOARD_SIZE] {
        &self.bytes
    }

    /// Enters the handover record at the start of these bytes; the line that it changed.
    pub fn record(&mut self, field: &[u8]) -> Result<u8, BoardRefusal> {
        // The library widened a u8.
        answer(calls::record(&mut self.bytes, field)).map(|words| words[0] as u8)
    }

    /// Clears a train whose last record is a leave; the line that is free now.
    pub fn clear(&mut self, train: u32) -> Result<u8, BoardRefusal> {
        answer(calls::clear(&mut self.bytes, train)).map(|words| words[0] as u8)
    }

    /// What stands on a line; nothing where it is free, or over 63.
    pub fn line(&self, line: u8) -> Option<Handover> {
        let [kind, train, cell, sequence] =
            answer(calls::line(&self.bytes, line)).expect("a board that calls made is one");
        let kind = match kind {
            0 => return None,
            1 => Kind::Joined,
            _ => Kind::Left,
        };
        Some(Handover { train: train as u32, cell: cell as u16, kind, sequence: sequence as u32 })
    }

    /// The lines that are used, with their numbers.
    pub fn lines(&self) -> impl Iterator<Item = (u8, Handover)> + '_ {
        (0..LINES).filter_map(|line| self.line(line).map(|record| (line, record)))
    }

    /// A train's line.
    pub fn find(&self, train: u32) -> Option<(u8, Handover)> {
        self.lines().find(|(_, record)| record.train == train)
    }
}

impl Default for Board {
    fn default() -> Board {
        Board::new()
    }
}
