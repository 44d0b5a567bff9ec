//! The calls of the small halt.

use super::{told, Told};

extern "C" {
    fn zf_halt_make(
        s: *const u8,
        s_len: usize,
        t: *mut u8,
        t_len: usize,
        out: *mut u8,
        out_len: usize,
    ) -> u64;
    fn zf_halt_put(
        t: *mut u8,
        t_len: usize,
        lane: u8,
        mark: u32,
        length: u64,
        out: *mut u8,
        out_len: usize,
    ) -> u64;
    fn zf_halt_take(t: *mut u8, t_len: usize, out: *mut u8, out_len: usize) -> u64;
    fn zf_halt_look(t: *const u8, t_len: usize, out: *mut u8, out_len: usize) -> u64;
    fn zf_halt_sets(t: *const u8, t_len: usize, out: *mut u8, out_len: usize) -> u64;
    fn zf_halt_lag(t: *const u8, t_len: usize, lane: u8, out: *mut u8, out_len: usize) -> u64;
    fn zf_halt_restart(t: *mut u8, t_len: usize, out: *mut u8, out_len: usize) -> u64;
}

// SAFETY: as in the module above.

pub fn make(s: &[u8], t: &mut [u8]) -> Told {
    told(|out, n| unsafe { zf_halt_make(s.as_ptr(), s.len(), t.as_mut_ptr(), t.len(), out, n) })
}

pub fn put(t: &mut [u8], lane: u8, mark: u32, length: u64) -> Told {
    told(|out, n| unsafe { zf_halt_put(t.as_mut_ptr(), t.len(), lane, mark, length, out, n) })
}

pub fn take(t: &mut [u8]) -> Told {
    told(|out, n| unsafe { zf_halt_take(t.as_mut_ptr(), t.len(), out, n) })
}

pub fn look(t: &[u8]) -> Told {
    told(|out, n| unsafe { zf_halt_look(t.as_ptr(), t.len(), out, n) })
}

pub fn sets(t: &[u8]) -> Told {
    told(|out, n| unsafe { zf_halt_sets(t.as_ptr(), t.len(), out, n) })
}

pub fn lag(t: &[u8], lane: u8) -> Told {
    told(|out, n| unsafe { zf_halt_lag(t.as_ptr(), t.len(), lane, out, n) })
}

pub fn restart(t: &mut [u8]) -> Told {
    told(|out, n| unsafe { zf_halt_restart(t.as_mut_ptr(), t.len(), out, n) })
}
