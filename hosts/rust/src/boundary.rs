//! The C boundary, the only module with unsafe code. `include/zenfrosta.h` documents each function.

#![allow(unsafe_code)]

pub mod board;
pub mod halt;
pub mod plans;
pub mod version;

/// The answer buffer: four 64-bit words, low byte first.
const OUT: usize = 32;

extern "C" {
    fn zf_table_size() -> u64;
    fn zf_make(s: *const u8, s_len: usize, t: *mut u8, t_len: usize, out: *mut u8, out_len: usize) -> u64;
    fn zf_old_table_size() -> u64;
    fn zf_convert(
        old: *const u8,
        old_len: usize,
        t: *mut u8,
        t_len: usize,
        out: *mut u8,
        out_len: usize,
    ) -> u64;
    fn zf_put(
        t: *mut u8,
        t_len: usize,
        lane: u8,
        mark: u32,
        length: u64,
        out: *mut u8,
        out_len: usize,
    ) -> u64;
    fn zf_put_train(
        t: *mut u8,
        t_len: usize,
        lane: u8,
        train: u8,
        mark: u32,
        length: u64,
        out: *mut u8,
        out_len: usize,
    ) -> u64;
    fn zf_take(t: *mut u8, t_len: usize, out: *mut u8, out_len: usize) -> u64;
    fn zf_look(t: *const u8, t_len: usize, out: *mut u8, out_len: usize) -> u64;
    fn zf_sets(t: *const u8, t_len: usize, out: *mut u8, out_len: usize) -> u64;
    fn zf_lag(t: *const u8, t_len: usize, lane: u8, out: *mut u8, out_len: usize) -> u64;
    fn zf_clock(t: *const u8, t_len: usize, out: *mut u8, out_len: usize) -> u64;
    fn zf_lane(t: *const u8, t_len: usize, lane: u8, out: *mut u8, out_len: usize) -> u64;
    fn zf_backlog(t: *const u8, t_len: usize, lane: u8, out: *mut u8, out_len: usize) -> u64;
    fn zf_record(t: *const u8, t_len: usize, lane: u8, before: u64, out: *mut u8, out_len: usize) -> u64;
    fn zf_train_record(
        t: *const u8,
        t_len: usize,
        lane: u8,
        train: u8,
        before: u64,
        out: *mut u8,
        out_len: usize,
    ) -> u64;
    fn zf_wait(t: *const u8, t_len: usize, lane: u8, ahead: u64, out: *mut u8, out_len: usize) -> u64;
    fn zf_edition(t: *const u8, t_len: usize, out: *mut u8, out_len: usize) -> u64;
    fn zf_offer(t: *mut u8, t_len: usize, p: *const u8, p_len: usize, out: *mut u8, out_len: usize) -> u64;
    fn zf_restart(t: *mut u8, t_len: usize, out: *mut u8, out_len: usize) -> u64;
    fn zf_run(
        s: *const u8,
        s_len: usize,
        limit: u64,
        t: *mut u8,
        t_len: usize,
        a: *mut u8,
        a_len: usize,
        out: *mut u8,
        out_len: usize,
    ) -> u64;
}

/// A result, 0 or a refusal's number, and the four words.
pub type Told = (u64, [u64; 4]);

fn told(call: impl FnOnce(*mut u8, usize) -> u64) -> Told {
    let mut out = [0; OUT];
    let result = call(out.as_mut_ptr(), OUT);
    let word = |i: usize| u64::from_le_bytes(std::array::from_fn(|j| out[8 * i + j]));
    (result, [word(0), word(1), word(2), word(3)])
}

// SAFETY, for every call below: each pointer comes from a slice, with its length. A slice that is written is lent by &mut, so no two of them
// overlap and nothing else uses them meanwhile. The library keeps no pointer.

pub fn table_size() -> u64 {
    unsafe { zf_table_size() }
}

pub fn make(s: &[u8], t: &mut [u8]) -> Told {
    told(|out, n| unsafe { zf_make(s.as_ptr(), s.len(), t.as_mut_ptr(), t.len(), out, n) })
}

pub fn old_table_size() -> u64 {
    unsafe { zf_old_table_size() }
}

pub fn convert(old: &[u8], t: &mut [u8]) -> Told {
    told(|out, n| unsafe { zf_convert(old.as_ptr(), old.len(), t.as_mut_ptr(), t.len(), out, n) })
}

pub fn put(t: &mut [u8], lane: u8, mark: u32, length: u64) -> Told {
    told(|out, n| unsafe { zf_put(t.as_mut_ptr(), t.len(), lane, mark, length, out, n) })
}

pub fn put_train(t: &mut [u8], lane: u8, train: u8, mark: u32, length: u64) -> Told {
    told(|out, n| unsafe { zf_put_train(t.as_mut_ptr(), t.len(), lane, train, mark, length, out, n) })
}

pub fn take(t: &mut [u8]) -> Told {
    told(|out, n| unsafe { zf_take(t.as_mut_ptr(), t.len(), out, n) })
}

pub fn look(t: &[u8]) -> Told {
    told(|out, n| unsafe { zf_look(t.as_ptr(), t.len(), out, n) })
}

pub fn sets(t: &[u8]) -> Told {
    told(|out, n| unsafe { zf_sets(t.as_ptr(), t.len(), out, n) })
}

pub fn lag(t: &[u8], lane: u8) -> Told {
    told(|out, n| unsafe { zf_lag(t.as_ptr(), t.len(), lane, out, n) })
}

pub fn clock(t: &[u8]) -> Told {
    told(|out, n| unsafe { zf_clock(t.as_ptr(), t.len(), out, n) })
}

pub fn lane(t: &[u8], lane: u8) -> Told {
    told(|out, n| unsafe { zf_lane(t.as_ptr(), t.len(), lane, out, n) })
}

pub fn backlog(t: &[u8], lane: u8) -> Told {
    told(|out, n| unsafe { zf_backlog(t.as_ptr(), t.len(), lane, out, n) })
}

pub fn record(t: &[u8], lane: u8, before: u64) -> Told {
    told(|out, n| unsafe { zf_record(t.as_ptr(), t.len(), lane, before, out, n) })
}

pub fn train_record(t: &[u8], lane: u8, train: u8, before: u64) -> Told {
    told(|out, n| unsafe { zf_train_record(t.as_ptr(), t.len(), lane, train, before, out, n) })
}

pub fn wait(t: &[u8], lane: u8, ahead: u64) -> Told {
    told(|out, n| unsafe { zf_wait(t.as_ptr(), t.len(), lane, ahead, out, n) })
}

pub fn edition(t: &[u8]) -> Told {
    told(|out, n| unsafe { zf_edition(t.as_ptr(), t.len(), out, n) })
}

pub fn offer(t: &mut [u8], p: &[u8]) -> Told {
    told(|out, n| unsafe { zf_offer(t.as_mut_ptr(), t.len(), p.as_ptr(), p.len(), out, n) })
}

pub fn restart(t: &mut [u8]) -> Told {
    told(|out, n| unsafe { zf_restart(t.as_mut_ptr(), t.len(), out, n) })
}

pub fn run(s: &[u8], limit: u64, t: &mut [u8], a: &mut [u8]) -> Told {
    told(|out, n| unsafe {
        zf_run(s.as_ptr(), s.len(), limit, t.as_mut_ptr(), t.len(), a.as_mut_ptr(), a.len(), out, n)
    })
}
