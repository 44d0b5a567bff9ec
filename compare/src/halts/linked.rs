//! The halt's calls of the unit's static library, through its C boundary.

#![allow(unsafe_code)]

use super::{Halt, Refused};
use crate::calls::{Answer, Call, Taken};
use crate::journal::linked::call;
use crate::layout::TABLE_SIZE;

extern "C" {
    fn zf_halt_make(
        setup: *const u8,
        setup_len: usize,
        table: *mut u8,
        table_len: usize,
        out: *mut u8,
        out_len: usize,
    ) -> u64;
    fn zf_halt_put(
        table: *mut u8,
        table_len: usize,
        lane: u8,
        mark: u32,
        length: u64,
        out: *mut u8,
        out_len: usize,
    ) -> u64;
    fn zf_halt_take(table: *mut u8, table_len: usize, out: *mut u8, out_len: usize) -> u64;
    fn zf_halt_look(table: *mut u8, table_len: usize, out: *mut u8, out_len: usize) -> u64;
    fn zf_halt_sets(table: *mut u8, table_len: usize, out: *mut u8, out_len: usize) -> u64;
    fn zf_halt_lag(table: *mut u8, table_len: usize, lane: u8, out: *mut u8, out_len: usize) -> u64;
    fn zf_halt_restart(table: *mut u8, table_len: usize, out: *mut u8, out_len: usize) -> u64;
}

const OUT: usize = 32;
/// Given where the answer buffer is shorter.
const OUT_SHORT: u64 = 255;
/// Stands for words that no answer has.
const NO_ANSWER: u8 = 254;

pub struct Linked;

fn taken(words: [u64; 4]) -> Option<Taken> {
    let [lane, mark, length, 0] = words else { return None };
    Some(Taken { lane: lane.try_into().ok()?, train: 0, mark: mark.try_into().ok()?, length })
}

// SAFETY, for every call below: each pointer comes from a slice with its own length, the slices do not overlap, and
// the library keeps no pointer after it returns.
impl Halt for Linked {
    fn make(&mut self, setup: &[u8], table: &mut [u8]) -> Result<u64, Refused> {
        let (at, size) = (table.as_mut_ptr(), table.len());
        match call(|out, n| unsafe { zf_halt_make(setup.as_ptr(), setup.len(), at, size, out, n) })? {
            [lanes, 0, 0, 0] => Ok(lanes),
            _ => Err(Refused::by(NO_ANSWER.into())),
        }
    }

    fn answer(&mut self, table: &mut [u8], asked: &Call) -> Answer {
        let (at, size) = (table.as_mut_ptr(), table.len());
        let told = call(|out, n| unsafe {
            match asked {
                Call::Put { lane, mark, length } => zf_halt_put(at, size, *lane, *mark, *length, out, n),
                Call::Take => zf_halt_take(at, size, out, n),
                Call::Look => zf_halt_look(at, size, out, n),
                Call::Sets => zf_halt_sets(at, size, out, n),
                Call::Lag { lane } => zf_halt_lag(at, size, *lane, out, n),
                Call::Restart => zf_halt_restart(at, size, out, n),
                Call::PutTrain { .. } | Call::Offer(_) => unreachable!("no call of the halt's"),
            }
        });
        let answer = match (asked, told) {
            // None of these refusals has a place.
            (_, Err(Refused { number, place: None })) => number.try_into().ok().map(Answer::No),
            (Call::Put { .. }, Ok([ahead, 0, 0, 0])) => Some(Answer::Put(ahead)),
            (Call::Take, Ok(words)) => taken(words).map(Answer::Taken),
            (Call::Look, Ok(words)) => taken(words).map(Answer::Looked),
            (Call::Sets, Ok(words)) => Some(Answer::Sets(words)),
            (Call::Lag { .. }, Ok([lag, 0, 0, 0])) => Some(Answer::Lag(lag as i64)),
            (Call::Restart, Ok([0, 0, 0, 0])) => Some(Answer::Restarted),
            _ => None,
        };
        answer.unwrap_or(Answer::No(NO_ANSWER))
    }
}

/// An answer buffer shorter than 32 bytes gives 255 with nothing written. Answers what is wrong.
pub fn boundary() -> Result<(), String> {
    let lane = |number: u8, high: u8, low: u8| [0x10, 0, 5, number, high, low, 1, 0];
    let lanes = [lane(0, 2, 0), lane(1, 1, 0), lane(2, 0, 128), lane(3, 0, 128)].concat();
    let setup = [&[0x01, 0, 2, 0, 2][..], &lanes, &[0x7F, 0, 0]].concat();
    let mut table = vec![0x33; TABLE_SIZE];
    Linked.make(&setup, &mut table).map_err(|refused| format!("the halt's setup gave {refused:?}"))?;
    let put = Linked.answer(&mut table, &Call::Put { lane: 0, mark: 1, length: 64 });
    if put != Answer::Put(0) {
        return Err(format!("a put to a fresh halt gave {put}"));
    }
    let before = table.clone();
    for length in 0..OUT {
        let mut out = [0x55; OUT];
        let (o, t) = (out.as_mut_ptr(), table.as_mut_ptr());
        let given = unsafe {
            [
                zf_halt_make(setup.as_ptr(), setup.len(), t, TABLE_SIZE, o, length),
                zf_halt_put(t, TABLE_SIZE, 0, 1, 64, o, length),
                zf_halt_take(t, TABLE_SIZE, o, length),
                zf_halt_look(t, TABLE_SIZE, o, length),
                zf_halt_sets(t, TABLE_SIZE, o, length),
                zf_halt_lag(t, TABLE_SIZE, 0, o, length),
                zf_halt_restart(t, TABLE_SIZE, o, length),
            ]
        };
        if given != [OUT_SHORT; 7] || out != [0x55; OUT] || table != before {
            return Err(format!("an answer buffer of {length} bytes for a call of the halt's: {given:?}"));
        }
    }
    Ok(())
}
