//! The calls on sheets of the unit's static library, through its C boundary.

#![allow(unsafe_code)]

use super::{Office, Refused};
use crate::journal::linked::{call, one};
use crate::plans::slips::sample;
use crate::plans::words::SIZE;

extern "C" {
    fn zf_sheet_read(
        sheet: *const u8,
        sheet_len: usize,
        plan: *mut u8,
        plan_len: usize,
        out: *mut u8,
        out_len: usize,
    ) -> u64;
    fn zf_sheet_write(
        plan: *const u8,
        plan_len: usize,
        sheet: *mut u8,
        sheet_len: usize,
        out: *mut u8,
        out_len: usize,
    ) -> u64;
}

const OUT: usize = 32;
/// Given where the answer buffer is shorter.
const OUT_SHORT: u64 = 255;

pub struct Linked;

// SAFETY, for every call below: each pointer comes from a slice with its own length, the slices do not overlap, and
// the library keeps no pointer after it returns.
impl Office for Linked {
    fn read(&mut self, sheet: &[u8], area: &mut [u8]) -> Result<u64, Refused> {
        let (at, size) = (area.as_mut_ptr(), area.len());
        one(call(|out, n| unsafe { zf_sheet_read(sheet.as_ptr(), sheet.len(), at, size, out, n) })?)
    }

    fn write(&mut self, area: &[u8], sheet: &mut [u8]) -> Result<u64, Refused> {
        let (at, size) = (sheet.as_mut_ptr(), sheet.len());
        one(call(|out, n| unsafe { zf_sheet_write(area.as_ptr(), area.len(), at, size, out, n) })?)
    }
}

/// That an answer buffer shorter than 32 bytes gives 255 with nothing written. Answers what is wrong.
pub fn boundary() -> Result<(), String> {
    let (area, _) = sample();
    let sheet = b"3 7 64\n";
    for length in 0..OUT {
        let mut out = [0x55; OUT];
        let mut filled = [0x33; SIZE];
        let mut written = [0x33; 64];
        let o = out.as_mut_ptr();
        let given = unsafe {
            [
                zf_sheet_read(sheet.as_ptr(), sheet.len(), filled.as_mut_ptr(), SIZE, o, length),
                zf_sheet_write(area.as_ptr(), SIZE, written.as_mut_ptr(), 64, o, length),
            ]
        };
        if given != [OUT_SHORT; 2] || out != [0x55; OUT] || filled != [0x33; SIZE] || written != [0x33; 64] {
            return Err(format!("an answer buffer of {length} bytes for a sheet: {given:?}"));
        }
    }
    Ok(())
}
