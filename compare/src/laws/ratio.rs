//! How near a list came to a bound, as a fraction: two of them are compared without a rounding and without a division.

use std::fmt;

/// So much of a bound was used.
#[derive(Clone, Copy, Debug, PartialEq, Eq)]
pub struct Ratio {
    pub used: i128,
    pub bound: i128,
}

impl Default for Ratio {
    fn default() -> Ratio {
        Ratio { used: 0, bound: 1 }
    }
}

impl Ratio {
    /// The bound is above 0.
    pub fn new(used: impl Into<i128>, bound: impl Into<i128>) -> Ratio {
        Ratio { used: used.into(), bound: bound.into() }
    }

    pub fn above(self, other: Ratio) -> bool {
        self.used * other.bound > other.used * self.bound
    }

    /// The nearer one.
    pub fn or(self, other: Ratio) -> Ratio {
        if other.above(self) {
            other
        } else {
            self
        }
    }

    /// In parts of so many, rounded down.
    pub fn of(self, parts: i128) -> i128 {
        parts * self.used / self.bound
    }
}

/// In hundredths of one of a hundred, rounded down: 99.99 % is not the bound.
impl fmt::Display for Ratio {
    fn fmt(&self, f: &mut fmt::Formatter) -> fmt::Result {
        let parts = self.of(10_000);
        write!(f, "{}.{:02} %", parts / 100, parts % 100)
    }
}
