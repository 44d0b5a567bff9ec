//! Random inputs of many flavours. Every generator draws from an [`Rng`](crate::rng::Rng) and from nothing else.
//!
//! - [`setups`] — valid plans, and their bytes
//! - [`caller`] — lists of calls, each chosen with the table's present contents in view
//! - [`offers`] — settings pages offered among calls, and damage to what a table keeps of them
//! - [`sessions`] — sessions for the run and for the program
//! - [`damage`] — faults in setups and sessions, field by field and byte by byte
//! - [`tables`] — tables that no call made; [`slots`] — faults in their slot lists; [`trains`] — their shared lanes

pub mod caller;
pub mod damage;
pub mod offers;
pub mod sessions;
pub mod setups;
pub mod slots;
pub mod tables;
pub mod trains;
