//! Versions: of this wrapper, and of the library that it is linked with.

use crate::boundary::version as calls;
use std::fmt;

/// The version of this wrapper; the repository's file VERSION has it too.
pub const VERSION: &str = env!("CARGO_PKG_VERSION");

/// A version.
#[derive(Clone, Copy, Debug, PartialEq, Eq, PartialOrd, Ord)]
pub struct Version {
    /// Calls or bytes that are kept may mean something else.
    pub major: u64,
    /// There is more than before.
    pub minor: u64,
    /// Something was mended.
    pub patch: u64,
}

impl fmt::Display for Version {
    fn fmt(&self, f: &mut fmt::Formatter<'_>) -> fmt::Result {
        write!(f, "{}.{}.{}", self.major, self.minor, self.patch)
    }
}

/// The library's version.
pub fn version() -> Version {
    let number = calls::version();
    Version { major: number >> 16, minor: number >> 8 & 0xFF, patch: number & 0xFF }
}
