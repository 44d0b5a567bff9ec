//! The converter of the unit's static library, through its C boundary.

#![allow(unsafe_code)]

use super::{Converter, Refused};
use crate::calls::Taken;
use crate::journal::linked::call;
use crate::layout::{old::THEN, TABLE_SIZE};
use crate::linked;
use crate::rules::State;
use crate::setup::{LanePlan, Setup};
use crate::unit::Unit;

extern "C" {
    fn zf_old_table_size() -> u64;
    fn zf_convert(
        old: *const u8,
        old_len: usize,
        table: *mut u8,
        table_len: usize,
        out: *mut u8,
        out_len: usize,
    ) -> u64;
}

const OUT: usize = 32;
/// Given where the answer buffer is shorter.
const OUT_SHORT: u64 = 255;
/// Stands for words that no answer has.
const NO_ANSWER: u64 = 254;

pub struct Linked;

// SAFETY, for every call below: each pointer comes from a slice with its own length, the slices do not overlap, and
// the library keeps no pointer after it returns.
impl Converter for Linked {
    fn convert(&mut self, old: &mut [u8], table: &mut [u8]) -> Result<(), Refused> {
        // From a slice that may be written, so that a write is seen and not undefined.
        let (from, length) = (old.as_mut_ptr().cast_const(), old.len());
        let (at, size) = (table.as_mut_ptr(), table.len());
        match call(|out, n| unsafe { zf_convert(from, length, at, size, out, n) })? {
            [0, 0, 0, 0] => Ok(()),
            _ => Err(Refused::by(NO_ANSWER)),
        }
    }

    fn take(&mut self, table: &mut [u8]) -> Result<Taken, u8> {
        linked::Linked.take(table)
    }
}

/// The old size, and that an answer buffer shorter than 32 bytes gives 255 with nothing written. Answers what is wrong.
pub fn boundary() -> Result<(), String> {
    let size = unsafe { zf_old_table_size() };
    if size != THEN.size as u64 {
        return Err(format!("an old table's size is {size}"));
    }
    let lanes = vec![LanePlan { number: 3, weight: 7, longest: 64, shared: false }];
    let mut old = vec![0; THEN.size];
    THEN.write(&State::fresh(&Setup { format: 1, framing: 0, lanes }), &mut old);
    let mut table = vec![0x33; TABLE_SIZE];
    for length in 0..OUT {
        let mut out = [0x55; OUT];
        let (o, t) = (out.as_mut_ptr(), table.as_mut_ptr());
        let given = unsafe { zf_convert(old.as_ptr(), old.len(), t, TABLE_SIZE, o, length) };
        if given != OUT_SHORT || out != [0x55; OUT] || table.iter().any(|byte| *byte != 0x33) {
            return Err(format!("an answer buffer of {length} bytes for a conversion: {given}"));
        }
    }
    Ok(())
}
