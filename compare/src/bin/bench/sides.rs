//! The sides that make a load's puts and takes, each a column of the tables: how a batch of them is timed, and what callgrind counts of them.
//!
//! The test for a good table stands alone in a lag of lane 255: no setup has it, so the call is the test and then refusal 11. A pair of the inner calls,
//! and a session's, is the difference of two lists, divided by the pairs that one has more: no setup, no test, no filling of lanes.

use crate::callgrind::Counted;
use crate::spread::{timed, Batches, BATCHES};
use compare::inner;
use compare::linked::Linked;
#[cfg(feature = "linux")]
use compare::linux::{self, Linux, Scheduler};
use compare::loads::{Call, Fill, Line, Load, Queue, REQUESTS};
use compare::session;
use compare::unit::Unit;

/// The pairs of a batch.
pub const PAIRS: usize = 500;
/// The pairs of a batch of the inner calls: more, so that making and filling the table, which is taken off, is little beside them.
const INNER_PAIRS: usize = 8_000;
/// The sessions of a batch.
pub const SESSIONS: usize = 4;
/// The area for the answers of a session.
pub const AREA: usize = 64 * (REQUESTS + 2);

struct Public {
    table: Vec<u8>,
    shared: bool,
}

impl Line for Public {
    fn put(&mut self, (lane, train): Queue, length: u64) {
        let put = match self.shared {
            true => Linked.put_train(&mut self.table, lane, train, 7, length),
            false => Linked.put(&mut self.table, lane, 7, length),
        };
        put.expect("a put that is accepted");
    }

    fn take(&mut self) -> Queue {
        let taken = Linked.take(&mut self.table).expect("a record is held");
        (taken.lane, taken.train)
    }
}

fn public(load: Load) -> Public {
    let mut table = vec![0; Linked.table_size()];
    Linked.make(&load.setup(), &mut table).expect("a valid setup");
    Public { table, shared: load.shared }
}

/// The inner calls, on a table made for them.
fn run_inner(load: Load, calls: &[Call], table: &mut [u8]) {
    Linked.make(&load.setup(), table).expect("a valid setup");
    inner::calls(table, calls);
}

/// The inner calls leave the table that the public calls leave, byte for byte: both columns measure the same work.
fn assert_same_work(load: Load) {
    let calls = load.list(2_000).whole();
    let (mut unit, mut other) = (public(load), public(load));
    unit.make(&calls);
    run_inner(load, &calls, &mut other.table);
    assert!(unit.table == other.table, "the inner calls leave another table");
}

/// What is set side by side is what its name says: the unit's two ways do the same work, and each of Linux's schedulers gives lanes their shares.
pub fn assert_fit() {
    loads().into_iter().for_each(assert_same_work);
    #[cfg(feature = "linux")]
    for load in loads().into_iter().filter(|load| !load.shared && load.fill == Fill::Steady) {
        let fair = |scheduler| linux::assert_fair(load, scheduler);
        [Scheduler::QfqAlone, Scheduler::Qfq, Scheduler::Drr].into_iter().for_each(fair);
    }
}

pub fn same() {
    assert_fit();
    println!("The inner calls leave the tables that the public calls leave.");
    if SIDES.iter().any(Side::of_linux) {
        println!("Each of Linux's schedulers sends lanes their shares.");
    }
}

pub fn run_unit(session: &[u8], table: &mut [u8], answers: &mut [u8]) {
    let run = Linked.run(session, REQUESTS as u64, table, answers);
    assert!(run.answered > 0);
}

#[inline(never)]
pub fn run_plain(session: &[u8], size: usize) -> usize {
    session::run(session, REQUESTS as u64, size, size, AREA).text.len()
}

/// A column: its name in the tables, and inside of which functions callgrind counts.
#[derive(Clone, Copy, PartialEq)]
pub struct Side {
    pub what: What,
    pub heading: &'static str,
    functions: &'static [&'static str],
}

#[derive(Clone, Copy, PartialEq)]
pub enum What {
    Public,
    Test,
    Session,
    Inner,
    #[cfg(feature = "linux")]
    Linux(Scheduler),
    Plain,
}

/// Finding a class by its number is left out: the unit is told the lane's place, and how Linux looks it up goes by the number of classes.
#[cfg(feature = "linux")]
const QFQ: &[&str] = &["qfq_enqueue", "qfq_dequeue", "qdisc_class_find"];

pub const SIDES: &[Side] = &[
    Side { what: What::Public, heading: "public calls", functions: &["zf_put", "zf_put_train", "zf_take"] },
    Side { what: What::Test, heading: "the test, once", functions: &["zf_lag"] },
    Side { what: What::Session, heading: "in a session", functions: &["zf_run"] },
    Side { what: What::Inner, heading: "inner calls", functions: &["zf_inner_calls"] },
    #[cfg(feature = "linux")]
    Side { what: What::Linux(Scheduler::QfqAlone), heading: "`sch_qfq`, one class each", functions: QFQ },
    #[cfg(feature = "linux")]
    Side { what: What::Linux(Scheduler::Qfq), heading: "`sch_qfq`", functions: QFQ },
    #[cfg(feature = "linux")]
    Side {
        what: What::Linux(Scheduler::Drr),
        heading: "`sch_drr`",
        functions: &["drr_enqueue", "drr_dequeue", "qdisc_class_find"],
    },
    Side { what: What::Plain, heading: "plain rules", functions: &["*plain_put*", "*plain_take*"] },
];

/// Whole sessions, of the unit and of the plain program.
pub const RUNS: [(&str, &[&str]); 2] = [("`zf_run`", &["zf_run"]), ("the plain program", &["*run_plain*"])];

impl Side {
    /// A fresh line of the load's setup, for those that make calls one by one.
    fn line(&self, load: Load) -> Box<dyn Line> {
        match self.what {
            #[cfg(feature = "linux")]
            What::Linux(scheduler) => Box::new(Linux::fresh(load, scheduler)),
            What::Plain => Box::new(load.plain()),
            _ => Box::new(public(load)),
        }
    }

    pub fn of_linux(&self) -> bool {
        match self.what {
            #[cfg(feature = "linux")]
            What::Linux(_) => true,
            _ => false,
        }
    }

    /// Linux has no lanes that trains share.
    pub fn has(&self, load: Load) -> bool {
        !(self.of_linux() && load.shared)
    }

    pub fn batches(&self, load: Load) -> Batches<'static> {
        let (mut table, mut answers) = (vec![0; Linked.table_size()], vec![0; AREA]);
        match self.what {
            What::Inner => {
                let [none, all] = [0, INNER_PAIRS].map(|pairs| load.list(pairs).whole());
                Box::new(move |_| {
                    let filled = timed(INNER_PAIRS, || run_inner(load, &none, &mut table));
                    timed(INNER_PAIRS, || run_inner(load, &all, &mut table)) - filled
                })
            }
            What::Session => {
                let most = load.session_pairs();
                let [none, all] = [0, most].map(|pairs| load.session(pairs));
                let mut run = move |session: &[u8]| {
                    timed(SESSIONS * most, || {
                        (0..SESSIONS).for_each(|_| run_unit(session, &mut table, &mut answers))
                    })
                };
                Box::new(move |_| run(&all) - run(&none))
            }
            What::Test => {
                let mut unit = public(load);
                unit.make(&load.list(0).filling);
                let mut test = move || assert!(Linked.lag(&mut unit.table, 255) == Err(11));
                Box::new(move |_| timed(PAIRS, || (0..PAIRS).for_each(|_| test())))
            }
            _ => {
                let list = load.list_for(&mut *self.line(load), BATCHES * PAIRS);
                let mut line = self.line(load);
                line.make(&list.filling);
                Box::new(move |batch| {
                    let calls = &list.pairs[2 * PAIRS * batch..2 * PAIRS * (batch + 1)];
                    timed(PAIRS, || line.make(calls))
                })
            }
        }
    }

    pub fn counted(&self, index: usize) -> Counted<'static> {
        let numbers = match self.what {
            What::Session => [20, loads()[index].session_pairs()],
            What::Test => [10, 20],
            _ => [256, 1_280],
        };
        let place = SIDES.iter().position(|side| side == self).expect("one of the sides");
        let words = ["pair".to_string(), place.to_string(), index.to_string()].to_vec();
        Counted { words, functions: self.functions, numbers }
    }
}

/// All loads but the full ones, whose figures are those of the steady ones; those of shared lanes come last.
pub fn loads() -> Vec<Load> {
    Load::all().into_iter().filter(|load| load.fill != Fill::Full).chain(Load::shared()).collect()
}

pub fn counted_run(place: usize, index: usize) -> Counted<'static> {
    let words = ["pair".to_string(), format!("run{place}"), index.to_string()].to_vec();
    Counted { words, functions: RUNS[place].1, numbers: [1, 2] }
}

/// Runs so many of one kind, for callgrind.
pub fn count(number: usize, side: &str, load: &str) {
    let load = loads()[load.parse::<usize>().expect("a load")];
    let (mut answers, mut unit) = (vec![0; AREA], public(load));
    let session = || load.session(load.session_pairs());
    match side {
        "run0" => (0..number).for_each(|_| run_unit(&session(), &mut unit.table, &mut answers)),
        "run1" => (0..number).for_each(|_| assert!(run_plain(&session(), unit.table.len()) > 0)),
        _ => {
            let side = SIDES[side.parse::<usize>().expect("a side")];
            match side.what {
                What::Inner => run_inner(load, &load.list(number).whole(), &mut unit.table),
                What::Session => run_unit(&load.session(number), &mut unit.table, &mut answers),
                What::Test => {
                    unit.make(&load.list(0).filling);
                    (0..number).for_each(|_| assert!(Linked.lag(&mut unit.table, 255) == Err(11)));
                }
                // Working the list out makes its calls.
                _ => drop(load.list_for(&mut *side.line(load), number)),
            }
        }
    }
}
