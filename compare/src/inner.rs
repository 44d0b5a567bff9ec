//! The unit's inner calls by themselves, through the library of the crate `inner` (feature `inner`), which is there for the benchmark alone.

#![allow(unsafe_code)]

use crate::loads::Call;

extern "C" {
    fn zf_inner_calls(table: *mut u8, table_len: usize, calls: *const u8, calls_len: usize) -> u64;
}

/// Restarts a good table that holds no record, and makes the calls on it.
pub fn calls(table: &mut [u8], calls: &[Call]) {
    let bytes = std::mem::size_of_val(calls);
    // SAFETY: each pointer comes from a slice with its own length in bytes, the slices do not overlap, and the library keeps no pointer after it returns.
    let code = unsafe { zf_inner_calls(table.as_mut_ptr(), table.len(), calls.as_ptr().cast(), bytes) };
    assert!(code == 0, "a good table that holds no record gave {code}");
}
