//! What a comparison of lists, inputs and tables has counted.

use crate::calls::Answer;
use crate::laws::ratio::Ratio;
use crate::laws::waits::{ByLane, Near};
use crate::laws::Laws;
use crate::layout::{Reading, CLAUSES};
use crate::run::book::kept;

/// Counts of a comparison.
#[derive(Clone, Debug, Default, PartialEq, Eq)]
pub struct Tally {
    pub cases: u64,
    pub lists: u64,
    /// Calls of the lists.
    pub calls: u64,
    /// Calls that only show what a table holds after `make` or `run`, not counted among those.
    pub shown: u64,
    pub taken: u64,
    /// Questions about what the lists' tables show.
    pub asked: u64,
    /// Calls refused, by the refusal's last digit: 0 for 10, up to 6 for 16. 14 is not given any more.
    pub refused: [u64; 7],
    /// Pages offered: those in force at once, those that wait, refused by 60, and not read.
    pub offers: [u64; 4],
    /// Changes of setup, and how many of them a take brought.
    pub changes: u64,
    pub changes_by_take: u64,
    /// Puts refused by 70 and by 71.
    pub refused_trains: [u64; 2],
    /// Puts that took the clock back, in the lists and on tables that no call made.
    pub taken_back: u64,
    pub tables_taken_back: u64,
    /// Answers to sets in which the first, second, third, fourth word is not 0.
    pub words: [u64; 4],
    /// Setups given to `make`, and how many were accepted.
    pub setups: u64,
    pub setups_accepted: u64,
    /// Sessions given to `run`, their requests, and how many reached the end field.
    pub sessions: u64,
    pub requests: u64,
    pub sessions_ended: u64,
    /// Settings pages given to `offer` one after another, beside those of the lists.
    pub pages: u64,
    /// Tables that no call made, how many of them were good, and how many broke each clause of a good table and no other.
    pub tables: u64,
    pub tables_good: u64,
    pub broken_alone: Vec<u64>,
    /// Calls on them, and how many good tables a call made into one that is not.
    pub table_calls: u64,
    pub tables_lost: u64,
    /// Lanes and points of the lists at which demand 3 was checked for all stretches that end there.
    pub stretch_ends: u64,
    /// The nearest that a stretch came to demand 3's tighter bound, and to its own.
    pub closest: Ratio,
    pub closest_plain: Ratio,
    /// Two lanes and a point at which they were compared for all stretches that end there, and the nearest that one came to its bound.
    pub pair_ends: u64,
    pub closest_pair: Ratio,
    /// Two trains of a shared lane and a point at which they were compared so, and the nearest that one came to three times the longest less 2.
    pub train_ends: u64,
    pub closest_trains: Ratio,
    /// How far V came past 2^61, of 2^44.
    pub closest_clock: Ratio,
    /// Records of which the wait was checked, and the nearest to their bounds: of lanes that are not shared, and of shared ones.
    pub waits: u64,
    pub closest_wait: Near,
    pub closest_shared_wait: Near,
    /// The same of the lanes of docs/FAIRNESS.md's table.
    pub waits_by_lane: ByLane,
    /// Records taken from shared lanes by trains other than 0.
    pub taken_of_trains: u64,
}

impl Tally {
    /// One more list, by what its laws counted.
    pub fn list(&mut self, laws: &Laws) {
        self.lists += 1;
        self.stretch_ends += laws.fairness.checked;
        let [tight, plain] = laws.fairness.closest();
        self.closest = self.closest.or(tight);
        self.closest_plain = self.closest_plain.or(plain);
        self.pair_ends += laws.compared.checked;
        self.closest_pair = self.closest_pair.or(laws.compared.closest());
        self.changes += laws.editions.changes;
        self.changes_by_take += laws.editions.by_take;
        self.train_ends += laws.trains.checked;
        self.closest_trains = self.closest_trains.or(laws.trains.closest());
        self.closest_clock = self.closest_clock.or(laws.clock());
        self.waits += laws.waits.checked;
        self.closest_wait = self.closest_wait.or(laws.waits.closest);
        self.closest_shared_wait = self.closest_shared_wait.or(laws.waits.closest_shared);
        for (lane, near) in &laws.waits.by_lane {
            let best = self.waits_by_lane.entry(*lane).or_insert(*near);
            *best = best.or(*near);
        }
    }

    /// One more call of a list.
    pub fn call(&mut self, answer: Answer) {
        self.calls += 1;
        match answer {
            Answer::No(number @ 10..=16) => self.refused[usize::from(number) - 10] += 1,
            Answer::InForce | Answer::Waits | Answer::No(60) | Answer::Unread(_) => self.offered(answer),
            Answer::No(number @ 70..=71) => self.refused_trains[usize::from(number) - 70] += 1,
            Answer::Taken(taken) => {
                self.taken += 1;
                self.taken_of_trains += u64::from(taken.train != 0);
            }
            Answer::Sets(words) => {
                for (count, word) in self.words.iter_mut().zip(words) {
                    *count += u64::from(word != 0);
                }
            }
            _ => {}
        }
    }

    /// One more page that was offered.
    pub fn offered(&mut self, answer: Answer) {
        let kind = match answer {
            Answer::InForce => 0,
            Answer::Waits => 1,
            Answer::No(_) => 2,
            _ => 3,
        };
        self.offers[kind] += 1;
    }

    /// One more table that no call made.
    pub fn table(&mut self, reading: &Reading) {
        self.tables += 1;
        self.tables_good += u64::from(reading.broken.is_empty());
        self.broken_alone.resize(CLAUSES.len(), 0);
        for (count, clause) in self.broken_alone.iter_mut().zip(CLAUSES) {
            *count += u64::from(reading.broken == [*clause]);
        }
    }

    /// One more call on such a table.
    pub fn table_call(&mut self) {
        self.table_calls += 1;
    }

    /// Setups, sessions and pages together.
    pub fn inputs(&self) -> u64 {
        self.setups + self.sessions + self.pages
    }
}

kept!(Tally {
    sum: cases, lists, calls, shown, taken, asked, changes, changes_by_take, taken_back, tables_taken_back;
    sum: setups, setups_accepted, sessions, requests, sessions_ended, pages;
    sum: tables, tables_good, table_calls, tables_lost, stretch_ends, pair_ends, train_ends, waits, taken_of_trains;
    sums: refused, offers, refused_trains, words;
    growing: broken_alone;
    ratio: closest, closest_plain, closest_pair, closest_trains, closest_clock;
    near: closest_wait, closest_shared_wait;
    by_lane: waits_by_lane;
});
