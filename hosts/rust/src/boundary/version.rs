//! The library's version.

extern "C" {
    fn zf_version() -> u64;
}

// SAFETY: the call takes nothing.

pub fn version() -> u64 {
    unsafe { zf_version() }
}
