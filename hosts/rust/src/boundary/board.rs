//! The calls of the desk's board.

use super::{told, Told};

extern "C" {
    fn zf_board_size() -> u64;
    fn zf_board_begin(b: *mut u8, b_len: usize, out: *mut u8, out_len: usize) -> u64;
    fn zf_board_record(
        b: *mut u8,
        b_len: usize,
        f: *const u8,
        f_len: usize,
        out: *mut u8,
        out_len: usize,
    ) -> u64;
    fn zf_board_clear(b: *mut u8, b_len: usize, train: u32, out: *mut u8, out_len: usize) -> u64;
    fn zf_board_line(b: *const u8, b_len: usize, line: u8, out: *mut u8, out_len: usize) -> u64;
}

// SAFETY: as in the module above.

pub fn size() -> u64 {
    unsafe { zf_board_size() }
}

pub fn begin(b: &mut [u8]) -> Told {
    told(|out, n| unsafe { zf_board_begin(b.as_mut_ptr(), b.len(), out, n) })
}

pub fn record(b: &mut [u8], f: &[u8]) -> Told {
    told(|out, n| unsafe { zf_board_record(b.as_mut_ptr(), b.len(), f.as_ptr(), f.len(), out, n) })
}

pub fn clear(b: &mut [u8], train: u32) -> Told {
    told(|out, n| unsafe { zf_board_clear(b.as_mut_ptr(), b.len(), train, out, n) })
}

pub fn line(b: &[u8], line: u8) -> Told {
    told(|out, n| unsafe { zf_board_line(b.as_ptr(), b.len(), line, out, n) })
}
