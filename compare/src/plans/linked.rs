//! The calls on plan areas of the unit's static library, through its C boundary.

#![allow(unsafe_code)]

use super::slips::sample;
use super::words::SIZE;
use super::{Depot, Refused};
use crate::journal::linked::{call, one};

extern "C" {
    fn zf_plan_size() -> u64;
    fn zf_setup_read(
        setup: *const u8,
        setup_len: usize,
        plan: *mut u8,
        plan_len: usize,
        out: *mut u8,
        out_len: usize,
    ) -> u64;
    fn zf_setup_write(
        plan: *const u8,
        plan_len: usize,
        setup: *mut u8,
        setup_len: usize,
        out: *mut u8,
        out_len: usize,
    ) -> u64;
}

const OUT: usize = 32;
/// Given where the answer buffer is shorter.
const OUT_SHORT: u64 = 255;

pub struct Linked;

// SAFETY, for every call below: each pointer comes from a slice with its own length, the slices do not overlap, and
// the library keeps no pointer after it returns.
impl Depot for Linked {
    fn read(&mut self, setup: &[u8], area: &mut [u8]) -> Result<u64, Refused> {
        let (at, size) = (area.as_mut_ptr(), area.len());
        one(call(|out, n| unsafe { zf_setup_read(setup.as_ptr(), setup.len(), at, size, out, n) })?)
    }

    fn write(&mut self, area: &[u8], setup: &mut [u8]) -> Result<u64, Refused> {
        let (at, size) = (setup.as_mut_ptr(), setup.len());
        one(call(|out, n| unsafe { zf_setup_write(area.as_ptr(), area.len(), at, size, out, n) })?)
    }
}

/// The size, and that an answer buffer shorter than 32 bytes gives 255 with nothing written. Answers what is wrong.
pub fn boundary() -> Result<(), String> {
    let size = unsafe { zf_plan_size() };
    if size != SIZE as u64 {
        return Err(format!("a plan area's size is {size}"));
    }
    let (area, setup) = sample();
    for length in 0..OUT {
        let mut out = [0x55; OUT];
        let mut filled = [0x33; SIZE];
        let mut written = [0x33; 64];
        let o = out.as_mut_ptr();
        let given = unsafe {
            [
                zf_setup_read(setup.as_ptr(), setup.len(), filled.as_mut_ptr(), SIZE, o, length),
                zf_setup_write(area.as_ptr(), SIZE, written.as_mut_ptr(), 64, o, length),
            ]
        };
        if given != [OUT_SHORT; 2] || out != [0x55; OUT] || filled != [0x33; SIZE] || written != [0x33; 64] {
            return Err(format!("an answer buffer of {length} bytes for a plan: {given:?}"));
        }
    }
    Ok(())
}
