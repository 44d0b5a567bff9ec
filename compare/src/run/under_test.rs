//! What a run compares: the linked library, or the stand-ins where there is none.

#[cfg(feature = "unit")]
mod units {
    pub use crate::convert::linked::Linked as Converter;
    pub use crate::halts::linked::Linked as Halt;
    pub use crate::journal::linked::Linked as Desk;
    pub use crate::linked::Linked as Tables;
    pub use crate::plans::linked::Linked as Depot;
    pub use crate::sheets::linked::Linked as Office;
}

#[cfg(not(feature = "unit"))]
mod units {
    pub use crate::convert::slips::Slipped as Converter;
    pub use crate::halts::slips::Slipped as Halt;
    pub use crate::journal::slips::Slipped as Desk;
    pub use crate::plans::slips::Slipped as Depot;
    pub use crate::sheets::slips::Slipped as Office;
    pub use crate::stand_in::StandIn as Tables;
}

pub struct UnderTest {
    pub unit: units::Tables,
    pub desk: units::Desk,
    pub depot: units::Depot,
    pub office: units::Office,
    pub converter: units::Converter,
    pub halt: units::Halt,
}

impl UnderTest {
    /// The library, after a look at its boundary: sizes, and answer buffers that are too short.
    #[cfg(feature = "unit")]
    pub fn new() -> Result<UnderTest, String> {
        crate::linked::short_buffers()?;
        crate::journal::linked::boundary()?;
        crate::plans::linked::boundary()?;
        crate::sheets::linked::boundary()?;
        crate::convert::linked::boundary()?;
        crate::halts::linked::boundary()?;
        Ok(UnderTest {
            unit: units::Tables,
            desk: units::Desk,
            depot: units::Depot,
            office: units::Office,
            converter: units::Converter,
            halt: units::Halt,
        })
    }

    #[cfg(not(feature = "unit"))]
    pub fn new() -> Result<UnderTest, String> {
        Ok(UnderTest {
            unit: units::Tables::new(crate::stand_in::Slip::None),
            desk: crate::journal::slips::Slipped(crate::journal::slips::Slip::None),
            depot: crate::plans::slips::Slipped(crate::plans::slips::Slip::None),
            office: crate::sheets::slips::Slipped(crate::sheets::slips::Slip::None),
            converter: crate::convert::slips::Slipped(crate::convert::slips::Slip::None),
            halt: crate::halts::slips::Slipped(crate::halts::slips::Slip::None),
        })
    }
}
