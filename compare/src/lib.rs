//! An independent implementation of what the unit was asked to do, and the machinery that compares the unit with it over long random lists of calls and random inputs.
//!
//! The implementation: [`numbers`], [`calls`], [`rules`], [`fields`], [`setup`], [`session`]; [`layout`] and [`slots`] read docs/TABLE.md's tables;
//! [`shown`] is what a table shows to a host that asks, [`waits`] how long a record can wait at worst.
//! [`journal`] is a second journal of the desk, [`plans`] a second writer of setups, [`sheets`] a second reader and writer of text
//! sheets, [`convert`] a second converter of old tables and [`halts`] a second small halt, each with its own comparison; [`pages`] is a second reader of
//! settings pages.
//! [`flips`] turns single bits of tables over.
//! The machinery: [`rng`], [`gen`], [`laws`], [`unit`], [`stand_in`], [`on_words`], [`driver`], [`pipes`]; [`loads`] and, with features of their
//! names, `inner` and `linux` are the benchmark's.
//!
//! Units: a *byte* is a byte of a record; a *clock unit* is the clock's smallest step, 1,024 of them for each
//! byte sent (QFQ calls the clock virtual time). Clock units are `i128` here, so that no sum can leave its range.

#![deny(unsafe_code)]

pub mod calls;
pub mod convert;
pub mod driver;
pub mod fields;
pub mod flips;
pub mod gen;
pub mod halts;
#[cfg(feature = "inner")]
pub mod inner;
pub mod journal;
pub mod laws;
pub mod layout;
#[cfg(feature = "unit")]
pub mod linked;
#[cfg(feature = "linux")]
pub mod linux;
pub mod loads;
pub mod numbers;
pub mod on_words;
pub mod pages;
pub mod pipes;
pub mod plans;
pub mod rng;
pub mod rules;
pub mod run;
pub mod session;
pub mod setup;
pub mod sheets;
pub mod shelf;
pub mod shown;
pub mod slots;
pub mod stand_in;
pub mod unit;
pub mod waits;
