//! What was compared, told; and what differed.

pub use super::tally::Tally;

use crate::layout::CLAUSES;
use std::fmt;

impl fmt::Display for Tally {
    fn fmt(&self, f: &mut fmt::Formatter) -> fmt::Result {
        write!(
            f,
            "{} cases: {} calls, {} inputs and {} tables that no call made compared",
            self.cases,
            self.calls,
            self.inputs(),
            self.tables
        )?;
        if self.lists > 0 {
            self.of_lists(f)?;
        }
        if self.inputs() > 0 {
            self.of_inputs(f)?;
        }
        if self.tables > 0 {
            self.of_tables(f)?;
        }
        Ok(())
    }
}

/// The counts of each kind, a line feed before each line.
impl Tally {
    fn of_lists(&self, f: &mut fmt::Formatter) -> fmt::Result {
        write!(
            f,
            "\n  {} lists, {} records taken, {} of them of trains 1 to 7 in shared lanes; {} questions to their tables",
            self.lists, self.taken, self.taken_of_trains, self.asked
        )?;
        let refused: Vec<String> = (10..)
            .zip(self.refused)
            .filter(|(number, _)| *number != 14)
            .chain((70..).zip(self.refused_trains))
            .map(|(number, n)| format!("{number}: {n}"))
            .collect();
        write!(f, "\n  calls refused by {}", refused.join(", "))?;
        let [now, waits, old, unread] = self.offers;
        write!(
            f,
            "\n  pages offered: {now} in force at once, {waits} that wait, {old} refused by 60, {unread} by the reader; {} changes of setup, {} by a take",
            self.changes, self.changes_by_take
        )?;
        write!(
            f,
            "\n  the clock taken back {} times, from 2^61 + {} at most; every answer that of an endless clock",
            self.taken_back, self.closest_clock.used
        )?;
        write!(f, "\n  answers to sets in which each of the four words names a group: {:?}", self.words)?;
        write!(
            f,
            "\n  demand 3 on all stretches that end at {} points; the closest used {} of the tighter bound, and {} with 1,500 in it",
            self.stretch_ends, self.closest, self.closest_plain
        )?;
        write!(
            f,
            "\n  two busy lanes compared on all stretches that end at {} points; the closest used {} of its bound",
            self.pair_ends, self.closest_pair
        )?;
        write!(
            f,
            "\n  two trains of a lane compared on all stretches that end at {} points; the closest used {} of its bound",
            self.train_ends, self.closest_trains
        )?;
        write!(
            f,
            "\n  the waits of {} records; the closest used {}, in a shared lane {} of their bounds",
            self.waits, self.closest_wait, self.closest_shared_wait
        )
    }

    fn of_inputs(&self, f: &mut fmt::Formatter) -> fmt::Result {
        write!(f, "\n  {} setups, {} of them accepted", self.setups, self.setups_accepted)?;
        write!(
            f,
            "\n  {} sessions with {} requests answered, {} reached the end field",
            self.sessions, self.requests, self.sessions_ended
        )?;
        if self.pages > 0 {
            write!(f, "\n  {} pages offered one after another", self.pages)?;
        }
        write!(f, "\n  {} calls beside those show the tables that the inputs made", self.shown)
    }

    fn of_tables(&self, f: &mut fmt::Formatter) -> fmt::Result {
        write!(
            f,
            "\n  tables that no call made: {} good, {} not good; {} calls on them, {} took the clock back; {} good ones led to one that is not",
            self.tables_good,
            self.tables - self.tables_good,
            self.table_calls,
            self.tables_taken_back,
            self.tables_lost
        )?;
        let alone: Vec<String> =
            CLAUSES.iter().zip(&self.broken_alone).map(|(clause, n)| format!("{clause:?} {n}")).collect();
        write!(f, "\n  those that break one clause alone: {}", alone.join(", "))
    }
}

/// What differed, and the input or the list that shows it.
#[derive(Clone, Debug)]
pub struct Found {
    pub what: String,
    pub shown_by: Vec<String>,
}

impl Found {
    pub fn new(what: impl Into<String>, shown_by: Vec<String>) -> Found {
        Found { what: what.into(), shown_by }
    }
}

#[derive(Clone, Debug)]
pub struct Difference {
    pub seed: u64,
    pub case: u64,
    pub found: Found,
}

impl fmt::Display for Difference {
    fn fmt(&self, f: &mut fmt::Formatter) -> fmt::Result {
        writeln!(f, "DIFFERENCE in case {} of seed {}", self.case, self.seed)?;
        for line in &self.found.shown_by {
            writeln!(f, "  {line}")?;
        }
        writeln!(f, "{}", self.found.what)?;
        write!(f, "Again, alone: compare one --seed {} --case {}", self.seed, self.case)
    }
}

pub fn hex(bytes: &[u8]) -> String {
    bytes.iter().map(|byte| format!("{byte:02x}")).collect()
}
