//! The kinds of cases that a run has, each with case numbers of its own, and the goals that they count towards.

use crate::driver;
use std::fmt;

#[derive(Clone, Copy, Debug, PartialEq, Eq)]
pub enum Kind {
    /// Lists of calls,
    Lists,
    /// those that make one record wait,
    Waits,
    /// and those that drive one lane to demand 3's bound.
    Tight,
    /// Setups for `make`, sessions for `run`,
    Makes,
    Runs,
    /// pages offered one after another,
    Pages,
    /// setups and sheets that are read into plan areas and written from them,
    Plans,
    Sheets,
    /// records for the desk's board.
    Boards,
    /// Tables that no call made, those of the small halt,
    Tables,
    Halts,
    /// and those of 16 places.
    Conversions,
}

pub const KINDS: [Kind; 12] = [
    Kind::Lists,
    Kind::Waits,
    Kind::Tight,
    Kind::Makes,
    Kind::Runs,
    Kind::Pages,
    Kind::Plans,
    Kind::Sheets,
    Kind::Boards,
    Kind::Tables,
    Kind::Halts,
    Kind::Conversions,
];

/// What a run is to come to.
#[derive(Clone, Copy, Debug, PartialEq, Eq)]
pub enum Goal {
    /// Calls on lists.
    Calls,
    /// Setups, sheets, pages, sessions and records.
    Inputs,
    /// Tables and boards that no call made.
    Tables,
    /// Old tables that were converted.
    Conversions,
}

pub const GOALS: [Goal; 4] = [Goal::Calls, Goal::Inputs, Goal::Tables, Goal::Conversions];

impl Kind {
    pub fn name(self) -> &'static str {
        match self {
            Kind::Lists => "lists",
            Kind::Waits => "waits",
            Kind::Tight => "tight",
            Kind::Makes => "makes",
            Kind::Runs => "runs",
            Kind::Pages => "pages",
            Kind::Plans => "plans",
            Kind::Sheets => "sheets",
            Kind::Boards => "boards",
            Kind::Tables => "tables",
            Kind::Halts => "halts",
            Kind::Conversions => "conversions",
        }
    }

    pub fn named(name: &str) -> Option<Kind> {
        KINDS.into_iter().find(|kind| kind.name() == name)
    }

    /// The kinds that share one row of case numbers, in which each number is of one of them.
    pub fn drawn(self) -> Option<driver::Kind> {
        match self {
            Kind::Lists => Some(driver::Kind::Lists),
            Kind::Makes => Some(driver::Kind::Makes),
            Kind::Runs => Some(driver::Kind::Runs),
            Kind::Tables => Some(driver::Kind::Tables),
            _ => None,
        }
    }

    /// The goal that it counts towards, and how much of that it is to have, of a hundred. The shares go by what a case of each costs and finds.
    pub fn goal(self) -> (Goal, u64) {
        match self {
            Kind::Lists => (Goal::Calls, 94),
            Kind::Waits => (Goal::Calls, 4),
            Kind::Tight => (Goal::Calls, 2),
            Kind::Makes => (Goal::Inputs, 6),
            Kind::Runs => (Goal::Inputs, 2),
            Kind::Pages => (Goal::Inputs, 20),
            Kind::Plans => (Goal::Inputs, 22),
            Kind::Sheets => (Goal::Inputs, 25),
            Kind::Boards => (Goal::Inputs, 25),
            Kind::Tables => (Goal::Tables, 90),
            Kind::Halts => (Goal::Tables, 10),
            Kind::Conversions => (Goal::Conversions, 100),
        }
    }
}

impl fmt::Display for Goal {
    fn fmt(&self, f: &mut fmt::Formatter) -> fmt::Result {
        f.write_str(match self {
            Goal::Calls => "calls",
            Goal::Inputs => "inputs",
            Goal::Tables => "tables",
            Goal::Conversions => "conversions",
        })
    }
}
