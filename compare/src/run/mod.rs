//! Long runs: cases of every kind until goals are reached, with their progress told, in a state that a later run goes on with.
//!
//! - [`kinds`] — the kinds of cases, and the goals that they count towards
//! - [`counts`] — what was counted, by kind; [`book`] — those numbers by name
//! - [`state`] — a run in a file, and whose runs it may go on with; [`sha256`] — the sum that tells libraries apart
//! - [`progress`] — what is told while it runs
//! - [`under_test`] — the linked library, or the stand-ins
//!
//! Which case is next follows from the counts and the goals alone. So a run that was broken off and gone on with has the same cases as one that was not.

pub mod book;
pub mod counts;
pub mod kinds;
pub mod progress;
pub mod sha256;
pub mod state;
pub mod under_test;

use crate::driver::report::Found;
use crate::unit::Unit;
use counts::Counts;
use kinds::{Goal, Kind, GOALS, KINDS};
use progress::Progress;
use std::time::{Duration, Instant};
use under_test::UnderTest;

/// The cases whose numbers leave `at` when they are divided by `of`: several runs of one seed have no case in common.
#[derive(Clone, Copy, Debug, PartialEq, Eq)]
pub struct Part {
    pub at: u64,
    pub of: u64,
}

pub const WHOLE: Part = Part { at: 0, of: 1 };

/// Which numbers are asked for of each goal, in the order of [`GOALS`]; 0 for none.
pub type Goals = [u64; GOALS.len()];

/// A run without goals goes on towards these, and beyond them.
pub const SHARES: Goals = [1_000_000_000, 100_000_000, 10_000_000, 1_000_000];

/// When a run ends: after so many cases, when the goals are reached, or after so much time.
#[derive(Clone, Copy, Debug)]
pub struct Until {
    /// Of all kinds, or of this one alone.
    pub kind: Option<Kind>,
    pub goals: Option<Goals>,
    /// In all, those of a state that the run goes on with among them.
    pub cases: Option<u64>,
    pub time: Option<Duration>,
}

#[derive(Clone, Debug, PartialEq, Eq)]
pub struct Run {
    pub seed: u64,
    pub part: Part,
    /// The next case number of each kind.
    pub next: [u64; KINDS.len()],
    pub counts: Counts,
    /// How long it took, over all its parts.
    pub spent: Duration,
}

impl Run {
    pub fn new(seed: u64, part: Part) -> Run {
        Run { seed, part, next: [part.at; KINDS.len()], counts: Counts::default(), spent: Duration::ZERO }
    }

    /// The next case of a kind: numbers of other kinds are left out.
    fn case(&mut self, units: &mut UnderTest, kind: Kind) -> Result<(), (u64, Found)> {
        loop {
            let number = self.next[kind as usize];
            let ran = self.counts.case(units, kind, self.seed, number).map_err(|found| (number, found))?;
            self.next[kind as usize] += self.part.of;
            if ran {
                return Ok(());
            }
        }
    }

    /// The cases of a kind below this number; with the case that differs.
    pub fn upto(
        &mut self,
        units: &mut UnderTest,
        kind: Kind,
        end: u64,
        progress: &mut Progress,
    ) -> Result<(), (u64, Found)> {
        let begin = Instant::now();
        let before = self.spent;
        for number in 0..end {
            self.spent = before + begin.elapsed();
            progress.look(self, None);
            self.counts.case(units, kind, self.seed, number).map_err(|found| (number, found))?;
        }
        Ok(())
    }

    /// Cases until the end, with what differed: its kind, its number, and what it was.
    pub fn go(
        &mut self,
        units: &mut UnderTest,
        until: Until,
        progress: &mut Progress,
    ) -> Result<(), (Kind, u64, Found)> {
        let (begin, before) = (Instant::now(), self.spent);
        loop {
            self.spent = before + begin.elapsed();
            let timely = until.time.map_or(true, |time| begin.elapsed() < time);
            let more = until.cases.map_or(true, |cases| self.counts.cases() < cases);
            let Some(kind) = self.wanted(units, until).filter(|_| timely && more) else { return Ok(()) };
            progress.look(self, until.goals);
            self.case(units, kind).map_err(|(number, found)| (kind, number, found))?;
        }
    }

    /// The kind of the next case: of the goals that are not reached the one that is least far on, and of its kinds the one that is least far on by its share.
    fn wanted(&self, units: &UnderTest, until: Until) -> Option<Kind> {
        if until.kind.is_some() {
            return until.kind;
        }
        let far = |done: u64, asked: u64| u128::from(done) * 1_000_000_000 / u128::from(asked.max(1));
        let reached = |goal: Goal| self.counts.reached(goal);
        let goals = until.goals.unwrap_or(SHARES);
        let endless = until.goals.is_none();
        let open = GOALS.into_iter().zip(goals).filter(|(goal, asked)| endless || reached(*goal) < *asked);
        let (goal, asked) = open.min_by_key(|(goal, asked)| far(reached(*goal), *asked))?;
        // Only tables as docs/TABLE.md lays them out can be laid by hand.
        let runs = |kind: &Kind| *kind != Kind::Tables || units.unit.documented_layout();
        let kinds = KINDS.into_iter().filter(|kind| kind.goal().0 == goal).filter(runs);
        kinds.min_by_key(|kind| far(self.counts.done(*kind), asked * kind.goal().1))
    }
}
