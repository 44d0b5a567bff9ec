//! All that a run has counted, by kind and by goal.

use super::book::kept;
use super::kinds::{Goal, Kind};
use super::under_test::UnderTest;
use crate::driver::report::Found;
use crate::driver::{self, tally::Tally};
use crate::rng::Rng;
use crate::{convert, halts, journal, plans, sheets};
use std::fmt;

#[derive(Clone, Debug, Default, PartialEq, Eq)]
pub struct Counts {
    /// Lists, setups, sessions, pages and tables that no call made.
    pub calls: Tally,
    pub waits: Tally,
    pub tight: Tally,
    pub boards: journal::driver::Tally,
    pub plans: plans::driver::Tally,
    pub sheets: sheets::driver::Tally,
    pub conversions: convert::driver::Tally,
    pub halts: halts::driver::Tally,
}

kept!(Counts {
    of: calls, waits, tight, boards, plans, sheets, conversions, halts;
});

impl Counts {
    /// Runs the case of this number, if it is of the kind; whether it is.
    pub fn case(&mut self, units: &mut UnderTest, kind: Kind, seed: u64, number: u64) -> Result<bool, Found> {
        if let Some(drawn) = kind.drawn() {
            return driver::one_of(&mut units.unit, seed, number, |kind| kind == drawn, &mut self.calls);
        }
        match kind {
            Kind::Waits => {
                driver::waits::case(&mut units.unit, &mut Rng::of_case(seed, number), &mut self.waits)
            }
            Kind::Tight => driver::tight::one(&mut units.unit, seed, number, &mut self.tight),
            Kind::Pages => driver::offers::one(&mut units.unit, seed, number, &mut self.calls),
            Kind::Plans => plans::driver::one(&mut units.depot, seed, number, &mut self.plans),
            Kind::Sheets => sheets::driver::one(&mut units.office, seed, number, &mut self.sheets),
            Kind::Boards => journal::driver::one(&mut units.desk, seed, number, &mut self.boards),
            Kind::Conversions => {
                convert::driver::one(&mut units.converter, seed, number, &mut self.conversions)
            }
            _ => halts::driver::one(&mut units.halt, seed, number, &mut self.halts),
        }
        .map(|()| true)
    }

    /// What a kind has done of its own, in the measure of its goal.
    pub fn done(&self, kind: Kind) -> u64 {
        match kind {
            Kind::Lists => self.calls.calls,
            Kind::Waits => self.waits.calls,
            Kind::Tight => self.tight.calls,
            Kind::Makes => self.calls.setups,
            Kind::Runs => self.calls.sessions,
            Kind::Pages => self.calls.pages,
            Kind::Plans => self.plans.cases,
            Kind::Sheets => self.sheets.cases,
            Kind::Boards => self.boards.fields,
            Kind::Tables => self.calls.tables,
            Kind::Halts => self.halts.tables,
            Kind::Conversions => self.conversions.converted,
        }
    }

    /// How far all kinds together are.
    pub fn reached(&self, goal: Goal) -> u64 {
        match goal {
            Goal::Calls => self.calls.calls + self.waits.calls + self.tight.calls,
            Goal::Inputs => {
                self.calls.inputs()
                    + self.plans.cases
                    + self.sheets.cases
                    + self.boards.fields
                    + self.halts.setups
            }
            Goal::Tables => self.calls.tables + self.boards.boards + self.halts.tables,
            Goal::Conversions => self.conversions.converted,
        }
    }

    pub fn cases(&self) -> u64 {
        self.calls.cases
            + self.waits.cases
            + self.tight.cases
            + self.boards.cases
            + self.plans.cases
            + self.sheets.cases
            + self.conversions.cases
            + self.halts.cases
    }

    /// The three tallies of lists.
    pub fn lists(&self) -> [&Tally; 3] {
        [&self.calls, &self.waits, &self.tight]
    }

    /// How near all lists together came to each bound: demand 3 by the setup's greatest longest and by 1,500, two lanes, two trains, a record's wait, a wait in
    /// a shared lane, V past 2^61.
    pub fn closest(&self) -> String {
        let best = |ratio: fn(&Tally) -> crate::laws::ratio::Ratio| {
            self.lists().into_iter().map(ratio).fold(Default::default(), crate::laws::ratio::Ratio::or)
        };
        format!(
            "demand 3 {} (by 1,500 {}), two lanes {}, two trains {}, wait {}, shared {}, clock {}",
            best(|tally| tally.closest),
            best(|tally| tally.closest_plain),
            best(|tally| tally.closest_pair),
            best(|tally| tally.closest_trains),
            best(|tally| tally.closest_wait.part),
            best(|tally| tally.closest_shared_wait.part),
            best(|tally| tally.closest_clock),
        )
    }
}

/// The tallies that have counted something.
impl fmt::Display for Counts {
    fn fmt(&self, f: &mut fmt::Formatter) -> fmt::Result {
        let told = |name: &str, tally: &Tally| (tally.cases, format!("{name}{tally}"));
        let all = [
            told("", &self.calls),
            told("lists that make a record wait, ", &self.waits),
            told("lists that drive a lane to its bound, ", &self.tight),
            (self.boards.cases, self.boards.to_string()),
            (self.plans.cases, self.plans.to_string()),
            (self.sheets.cases, self.sheets.to_string()),
            (self.conversions.cases, self.conversions.to_string()),
            (self.halts.cases, self.halts.to_string()),
        ];
        let told: Vec<String> =
            all.into_iter().filter(|(cases, _)| *cases > 0).map(|(_, told)| told).collect();
        write!(f, "{}", told.join("\n"))?;
        for near in self.waits.waits_by_lane.values() {
            write!(f, "\n  {near}")?;
        }
        Ok(())
    }
}
