//! What follows from a lane's numbers: c, group and slot (docs/RULES.md, R1); and bytes in seconds.

/// What the clock moves by for a byte of the line.
pub const LINE_RATE: u64 = 1_024;

/// A lane's figures.
#[derive(Clone, Copy, Debug, PartialEq, Eq)]
pub struct Figures {
    /// Clock units for a byte of this lane: 1,048,576 / weight, rounded up.
    pub c: u64,
    /// The least i with 2^i at least (longest + framing) times c.
    pub group: u32,
}

impl Figures {
    /// Of a weight of 1 to 1,024, a longest of 64 to 1,500 and framing of 0 to 64.
    pub fn of(weight: u16, longest: u16, framing: u8) -> Figures {
        let c = 1_048_576u64.div_ceil(u64::from(weight));
        let charged = u64::from(longest) + u64::from(framing);
        let group = (charged * c).next_power_of_two().trailing_zeros();
        Figures { c, group }
    }

    /// The slot, 2^group.
    pub fn slot(&self) -> u64 {
        1 << self.group
    }
}

/// So many bytes in seconds, at a rate in bits a second: one digit behind the point below 100 s, else whole seconds rounded up.
pub fn seconds(bytes: u64, rate: u64) -> String {
    let tenths = (u128::from(bytes) * 80).div_ceil(u128::from(rate));
    if tenths < 1_000 {
        format!("{}.{} s", tenths / 10, tenths % 10)
    } else {
        format!("{} s", crate::text::thousands(tenths.div_ceil(10) as u64))
    }
}

#[cfg(test)]
mod tests {
    use super::*;

    #[test]
    fn of_document_01() {
        let lane = Figures::of(512, 1_500, 0);
        assert_eq!((lane.c, lane.group, lane.slot()), (2_048, 22, 4_194_304));
        assert_eq!(Figures::of(256, 1_500, 0).group, 23);
        // M3, M5, M6
        assert_eq!(Figures::of(1, 64, 0).group, 26);
        assert_eq!(Figures::of(1, 65, 0).group, 27);
        assert_eq!(Figures::of(1_024, 64, 0).group, 16);
        assert_eq!(Figures::of(1, 1_500, 0).group, 31);
        assert_eq!(Figures::of(3, 1_500, 0).c, 349_526);
    }

    #[test]
    fn with_framing() {
        assert_eq!(Figures::of(512, 64, 20).group, 18);
        assert_eq!(Figures::of(256, 1_005, 20).group, 23);
    }

    #[test]
    fn in_seconds() {
        assert_eq!(seconds(17_884, 9_600), "15.0 s");
        assert_eq!(seconds(263_644, 9_600), "220 s");
        assert_eq!(seconds(8_390_108, 9_600), "6,992 s");
    }
}
