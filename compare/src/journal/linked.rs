//! The board's calls of the unit's static library, through its C boundary.

#![allow(unsafe_code)]

use super::{Desk, Refused, Shown};

extern "C" {
    fn zf_board_size() -> u64;
    fn zf_board_begin(board: *mut u8, length: usize, out: *mut u8, out_len: usize) -> u64;
    fn zf_board_record(
        board: *mut u8,
        length: usize,
        field: *const u8,
        field_len: usize,
        out: *mut u8,
        out_len: usize,
    ) -> u64;
    fn zf_board_clear(board: *mut u8, length: usize, train: u32, out: *mut u8, out_len: usize) -> u64;
    fn zf_board_line(board: *const u8, length: usize, line: u8, out: *mut u8, out_len: usize) -> u64;
}

const OUT: usize = 32;
/// Given where the answer buffer is shorter.
const OUT_SHORT: u64 = 255;
/// Stands for words that no answer has.
const NO_ANSWER: u64 = 254;

pub struct Linked;

/// Lends an answer buffer: the words, or the refusal with its place where word 1 says that it has one.
pub fn call(ask: impl FnOnce(*mut u8, usize) -> u64) -> Result<[u64; 4], Refused> {
    let mut out = [0xA5; OUT];
    let number = ask(out.as_mut_ptr(), OUT);
    let word = |i: usize| u64::from_le_bytes(out[8 * i..8 * i + 8].try_into().expect("eight bytes"));
    match (number, [word(0), word(1), word(2), word(3)]) {
        (0, words) => Ok(words),
        (number, [0, 0, 0, 0]) => Err(Refused::by(number)),
        (number, [place, 1, 0, 0]) => Err(Refused::at(number, place)),
        _ => Err(Refused::by(NO_ANSWER)),
    }
}

pub fn one(words: [u64; 4]) -> Result<u64, Refused> {
    match words {
        [line, 0, 0, 0] => Ok(line),
        _ => Err(Refused::by(NO_ANSWER)),
    }
}

// SAFETY, for every call below: each pointer comes from a slice with its own length, the slices do not overlap, and
// the library keeps no pointer after it returns.
impl Desk for Linked {
    fn begin(&mut self, board: &mut [u8]) -> Result<(), Refused> {
        match call(|out, n| unsafe { zf_board_begin(board.as_mut_ptr(), board.len(), out, n) })? {
            [0, 0, 0, 0] => Ok(()),
            _ => Err(Refused::by(NO_ANSWER)),
        }
    }

    fn record(&mut self, board: &mut [u8], field: &[u8]) -> Result<u64, Refused> {
        let (at, size) = (board.as_mut_ptr(), board.len());
        one(call(|out, n| unsafe { zf_board_record(at, size, field.as_ptr(), field.len(), out, n) })?)
    }

    fn clear(&mut self, board: &mut [u8], train: u32) -> Result<u64, Refused> {
        one(call(|out, n| unsafe { zf_board_clear(board.as_mut_ptr(), board.len(), train, out, n) })?)
    }

    fn line(&mut self, board: &mut [u8], line: u8) -> Result<Option<Shown>, Refused> {
        match call(|out, n| unsafe { zf_board_line(board.as_ptr(), board.len(), line, out, n) })? {
            [0, 0, 0, 0] => Ok(None),
            [kind, train, cell, sequence] => Ok(Some(Shown { kind, train, cell, sequence })),
        }
    }
}

/// The size, and that an answer buffer shorter than 32 bytes gives 255 with nothing written. Answers what is wrong.
pub fn boundary() -> Result<(), String> {
    let size = unsafe { zf_board_size() };
    if size != super::bytes::SIZE as u64 {
        return Err(format!("a board's size is {size}"));
    }
    let before = super::driver::sample();
    let mut board = before.clone();
    let field = super::bytes::field(super::rules::Record { train: 1, cell: 2, kind: 2, sequence: 4 });
    for length in 0..OUT {
        let mut out = [0x55; OUT];
        let (o, b, n) = (out.as_mut_ptr(), board.as_mut_ptr(), board.len());
        let given = unsafe {
            [
                zf_board_begin(b, n, o, length),
                zf_board_record(b, n, field.as_ptr(), field.len(), o, length),
                zf_board_clear(b, n, 1, o, length),
                zf_board_line(b, n, 0, o, length),
            ]
        };
        if given != [OUT_SHORT; 4] || out != [0x55; OUT] || board != before {
            return Err(format!("an answer buffer of {length} bytes on a board: {given:?}"));
        }
    }
    Ok(())
}
