//! The calls on plan areas: setups and text sheets.

use super::{told, Told};

extern "C" {
    fn zf_plan_size() -> u64;
    fn zf_setup_read(
        s: *const u8,
        s_len: usize,
        p: *mut u8,
        p_len: usize,
        out: *mut u8,
        out_len: usize,
    ) -> u64;
    fn zf_setup_write(
        p: *const u8,
        p_len: usize,
        s: *mut u8,
        s_len: usize,
        out: *mut u8,
        out_len: usize,
    ) -> u64;
    fn zf_sheet_read(
        s: *const u8,
        s_len: usize,
        p: *mut u8,
        p_len: usize,
        out: *mut u8,
        out_len: usize,
    ) -> u64;
    fn zf_sheet_write(
        p: *const u8,
        p_len: usize,
        s: *mut u8,
        s_len: usize,
        out: *mut u8,
        out_len: usize,
    ) -> u64;
}

// SAFETY: as in the module above.

pub fn size() -> u64 {
    unsafe { zf_plan_size() }
}

pub fn read(s: &[u8], p: &mut [u8]) -> Told {
    told(|out, n| unsafe { zf_setup_read(s.as_ptr(), s.len(), p.as_mut_ptr(), p.len(), out, n) })
}

pub fn write(p: &[u8], s: &mut [u8]) -> Told {
    told(|out, n| unsafe { zf_setup_write(p.as_ptr(), p.len(), s.as_mut_ptr(), s.len(), out, n) })
}

pub fn read_sheet(s: &[u8], p: &mut [u8]) -> Told {
    told(|out, n| unsafe { zf_sheet_read(s.as_ptr(), s.len(), p.as_mut_ptr(), p.len(), out, n) })
}

pub fn write_sheet(p: &[u8], s: &mut [u8]) -> Told {
    told(|out, n| unsafe { zf_sheet_write(p.as_ptr(), p.len(), s.as_mut_ptr(), s.len(), out, n) })
}
