//! What a run tells while it goes on, and when its state is written.

use super::kinds::GOALS;
use super::state;
use super::{Goals, Run};
use std::path::PathBuf;
use std::time::{Duration, Instant};

/// Between two lines, and between two writings of the state.
const TELL: Duration = Duration::from_secs(10);
const SAVE: Duration = Duration::from_secs(30);

pub struct Progress {
    state: Option<PathBuf>,
    quiet: bool,
    told: Instant,
    saved: Instant,
    /// What was reached at the last line, or when the run began.
    before: Option<[u64; GOALS.len()]>,
}

impl Progress {
    /// A run with a state in this file, if there is one.
    pub fn new(state: Option<PathBuf>) -> Progress {
        let now = Instant::now();
        Progress { state, quiet: false, told: now, saved: now, before: None }
    }

    /// A run that tells nothing and writes nothing.
    pub fn none() -> Progress {
        Progress { quiet: true, ..Progress::new(None) }
    }

    /// Behind every case; now and then something is told.
    pub fn look(&mut self, run: &Run, goals: Option<Goals>) {
        let reached = || GOALS.map(|goal| run.counts.reached(goal));
        let before = *self.before.get_or_insert_with(reached);
        if self.quiet || self.told.elapsed() < TELL {
            return;
        }
        eprintln!("{}", self.line(run, goals.unwrap_or_default(), before));
        self.told = Instant::now();
        self.before = Some(reached());
        if self.saved.elapsed() >= SAVE {
            self.save(run);
            self.saved = Instant::now();
        }
    }

    /// A state that cannot be written is told, and the run goes on.
    pub fn save(&self, run: &Run) {
        if let Some(Err(wrong)) = self.state.as_ref().map(|path| state::save(run, path)) {
            eprintln!("The state is not written: {wrong}");
        }
    }

    /// Cases, then of each goal what is reached, what is asked for and how many a second, then how near each bound was come to.
    fn line(&self, run: &Run, goals: Goals, before: [u64; GOALS.len()]) -> String {
        let seconds = self.told.elapsed().as_secs_f64().max(0.001);
        let goals = GOALS.into_iter().zip(goals).zip(before).map(|((goal, asked), before)| {
            let reached = run.counts.reached(goal);
            let rate = reached.saturating_sub(before) as f64 / seconds;
            let asked = if asked > 0 { format!(" of {asked}") } else { String::new() };
            format!("{reached}{asked} {goal} ({rate:.0}/s)")
        });
        let goals: Vec<String> = goals.collect();
        let (spent, cases) = (run.spent.as_secs(), run.counts.cases());
        format!("{spent} s, {cases} cases: {}; closest: {}", goals.join(", "), run.counts.closest())
    }
}
