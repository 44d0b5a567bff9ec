//! Zenfrosta for hosts in Rust: the public calls on a lent table, and the session run. Every function takes any bytes; a refusal changes no table.
//!
//! A table is [`TABLE_SIZE`] bytes or more that [`make`] has written; it may be kept, moved or copied between calls. One that was kept over the
//! update from lanes of 16 records is taken over by [`convert`], once. [`Board`] is the desk's board of which train is in which cell; it has
//! nothing to do with a table. [`Plan`] is a setup or a text sheet to be edited. [`offer`] brings a unit in the field a new setup, while records wait too.
//! [`halt`] is the small halt, whose calls take one setup and no other.

#![deny(missing_docs, unsafe_code)]

mod board;
mod boundary;
pub mod halt;
mod pages;
mod plan;
pub mod refusals;
mod version;

pub use board::{board_size, Board, BoardRefusal, Handover, Kind, BOARD_SIZE, LINES};
pub use pages::{edition, offer, page, Editions, Offered, PAGE_MORE};
pub use plan::{plan_size, Plan, PlanLane, PLAN_SIZE, SETUP_MOST, SHEET_MOST};
pub use refusals::RefusalKind;
pub use version::{version, Version, VERSION};

/// The fixed size of a table in bytes; bytes past it are never touched.
pub const TABLE_SIZE: usize = 65_536;

/// The fixed size in bytes of a table from before lanes had room for 64 records; only [`convert`] takes such a one.
pub const OLD_TABLE_SIZE: usize = 45_056;

/// The greatest limit of a run.
pub const MOST_REQUESTS: u64 = 1_000;

/// The bytes that the answer area of a run needs: 64 for each line. A limit over [`MOST_REQUESTS`] is refused with any area, so it needs no more.
pub const fn answer_area(limit: u64) -> usize {
    let lines = if limit > MOST_REQUESTS { MOST_REQUESTS } else { limit };
    64 * (lines as usize + 2)
}

/// Why something is refused: its number (docs/RULES.md, R14), and the place of the fault where the list has one.
#[derive(Clone, Copy, Debug, PartialEq, Eq)]
pub struct Refusal {
    /// Its number; `include/zenfrosta.h` has the list.
    pub number: u64,
    /// A place in the setup's, the page's or the session's bytes.
    pub place: Option<u64>,
}

impl Refusal {
    /// The number's case; none for a number that no call gives.
    pub const fn kind(&self) -> Option<RefusalKind> {
        RefusalKind::of(self.number)
    }

    /// What the number says, in words; `docs/REFUSALS.md` says what to mend.
    pub const fn words(&self) -> &'static str {
        match self.kind() {
            Some(kind) => kind.words(),
            None => "no number of the list",
        }
    }
}

impl std::fmt::Display for Refusal {
    fn fmt(&self, f: &mut std::fmt::Formatter<'_>) -> std::fmt::Result {
        match self.place {
            Some(place) => write!(f, "refused with {} at byte {place}: {}", self.number, self.words()),
            None => write!(f, "refused with {}: {}", self.number, self.words()),
        }
    }
}

impl std::error::Error for Refusal {}

/// A record that was taken or looked at.
#[derive(Clone, Copy, Debug, PartialEq, Eq)]
pub struct Record {
    /// The lane that it waited in.
    pub lane: u8,
    /// The train that it is of; 0 in a lane that is not shared.
    pub train: u8,
    /// The host's mark.
    pub mark: u32,
    /// Its length in bytes.
    pub length: u64,
}

/// The four words of the group sets: eligible or ineligible, ready or blocked. Bit i stands for group i.
#[derive(Clone, Copy, Debug, PartialEq, Eq)]
pub struct Sets {
    /// Eligible ready.
    pub er: u64,
    /// Ineligible ready.
    pub ir: u64,
    /// Eligible blocked.
    pub eb: u64,
    /// Ineligible blocked.
    pub ib: u64,
}

/// What the setup in force gives a lane.
#[derive(Clone, Copy, Debug, PartialEq, Eq)]
pub struct LaneSetting {
    /// Its weight, 1 to 1,024.
    pub weight: u64,
    /// Its longest record in bytes, 64 to 1,500.
    pub longest: u64,
    /// The line's framing bytes for each record, 0 to 64; the same for every lane.
    pub framing: u64,
    /// Its group index, 16 to 31.
    pub group: u64,
    /// Trains share it, each with a queue of its own.
    pub shared: bool,
}

/// What waits in a lane.
#[derive(Clone, Copy, Debug, PartialEq, Eq)]
pub struct Backlog {
    /// How many records, 0 to 64, of all its trains together.
    pub records: u64,
    /// The lane's start S while it holds records, its finish F while it is idle.
    pub time: u64,
}

/// How long a record can wait at worst, in bytes of the line, framing counted: once all lanes together have sent so many since its put, it is out, right
/// after those that were ahead of it.
#[derive(Clone, Copy, Debug, PartialEq, Eq)]
pub struct Wait {
    /// By 1,500 bytes, as it holds for every setup.
    pub asked: u64,
    /// By the setup's own costliest record; never greater.
    pub tight: u64,
}

/// Why a run stopped.
#[derive(Clone, Copy, Debug, PartialEq, Eq)]
pub enum Stop {
    /// At the end field.
    End,
    /// At the limit.
    Limit,
    /// At a refusal.
    Refused(Refusal),
}

/// How a run went.
#[derive(Clone, Copy, Debug, PartialEq, Eq)]
pub struct Run {
    /// Requests answered.
    pub answered: u64,
    /// Answer bytes written.
    pub written: usize,
    /// Why it stopped.
    pub stop: Stop,
}

/// The words of an answer, or the refusal.
fn answer((result, words): boundary::Told) -> Result<[u64; 4], Refusal> {
    match result {
        0 => Ok(words),
        // A refusal's words: its place, and whether it has one.
        number => Err(Refusal { number, place: (words[1] == 1).then_some(words[0]) }),
    }
}

fn record(told: boundary::Told) -> Result<Record, Refusal> {
    // The library widened two u8 and a u32.
    answer(told).map(|[lane, mark, length, train]| Record {
        lane: lane as u8,
        train: train as u8,
        mark: mark as u32,
        length,
    })
}

/// The table size as the library has it; [`TABLE_SIZE`].
pub fn table_size() -> u64 {
    boundary::table_size()
}

/// Makes the fresh table of a setup in the lent bytes; the number of lanes.
pub fn make(setup: &[u8], table: &mut [u8]) -> Result<u64, Refusal> {
    answer(boundary::make(setup, table)).map(|words| words[0])
}

/// The size of a table to be converted as the library has it; [`OLD_TABLE_SIZE`].
pub fn old_table_size() -> u64 {
    boundary::old_table_size()
}

/// Takes over a table from before lanes had room for 64 records into the lent bytes, whatever they held: the same records, clock, lanes and tie
/// order; edition 0. Takes answer from it as they would have from the old one, which may then be dropped.
///
/// Refused with 7 at place 0 if `table` is shorter than [`TABLE_SIZE`], then with 10 if the old table is not good or shorter than
/// [`OLD_TABLE_SIZE`]. What kind a kept table is, the host knows by its length: `old` must not be a table of today.
pub fn convert(old: &[u8], table: &mut [u8]) -> Result<(), Refusal> {
    answer(boundary::convert(old, table)).map(|_| ())
}

/// Puts a record into a lane, in a shared one for train 0; how many records its train held before it, 0 to 63, in a shared lane 0 to 7: so many of this
/// train go out first.
pub fn put(table: &mut [u8], lane: u8, mark: u32, length: u64) -> Result<u64, Refusal> {
    answer(boundary::put(table, lane, mark, length)).map(|words| words[0])
}

/// Puts a record of a train into a lane: 0 to 7 in a shared lane, 0 alone in another. How many records the train held before it.
///
/// Refused with 10, 11, 70, 12, then 13, or 71 in a shared lane.
pub fn put_train(table: &mut [u8], lane: u8, train: u8, mark: u32, length: u64) -> Result<u64, Refusal> {
    answer(boundary::put_train(table, lane, train, mark, length)).map(|words| words[0])
}

/// Takes the next record.
pub fn take(table: &mut [u8]) -> Result<Record, Refusal> {
    record(boundary::take(table))
}

/// Looks at the record that [`take`] would take.
pub fn look(table: &[u8]) -> Result<Record, Refusal> {
    record(boundary::look(table))
}

/// The group sets.
pub fn sets(table: &[u8]) -> Result<Sets, Refusal> {
    answer(boundary::sets(table)).map(|[er, ir, eb, ib]| Sets { er, ir, eb, ib })
}

/// How far the clock is ahead of a lane.
pub fn lag(table: &[u8], lane: u8) -> Result<i64, Refusal> {
    answer(boundary::lag(table, lane)).map(|words| words[0] as i64)
}

/// The clock V. This call, the five below and [`edition`] show a table, and change nothing.
pub fn clock(table: &[u8]) -> Result<u64, Refusal> {
    answer(boundary::clock(table)).map(|words| words[0])
}

/// What the setup in force gives a lane; 11 if it is not in the setup.
pub fn lane(table: &[u8], lane: u8) -> Result<LaneSetting, Refusal> {
    answer(boundary::lane(table, lane)).map(|[weight, longest, framing, word]| LaneSetting {
        weight,
        longest,
        framing,
        // 2^32 more where the lane is shared.
        group: word & 0xFFFF_FFFF,
        shared: word >> 32 != 0,
    })
}

/// How many records wait in a lane, and its time.
pub fn backlog(table: &[u8], lane: u8) -> Result<Backlog, Refusal> {
    answer(boundary::backlog(table, lane)).map(|[records, time, ..]| Backlog { records, time })
}

/// The record of a lane that `before` others of the lane go out before; 16 if no more than that wait there. Of a shared lane it is train 0's queue.
pub fn waiting(table: &[u8], lane: u8, before: u64) -> Result<Record, Refusal> {
    record(boundary::record(table, lane, before))
}

/// The record of a train that `before` others of the train go out before; refused with 10, 11, 70, then 16 if no more than that wait there.
pub fn waiting_of(table: &[u8], lane: u8, train: u8, before: u64) -> Result<Record, Refusal> {
    record(boundary::train_record(table, lane, train, before))
}

/// How long a record can wait at worst that was put to a lane and reported `ahead`, by the setup in force alone; refused with 10, 11, then 13, or 71 in a
/// shared lane, for more records ahead than an accepted put can report.
pub fn wait(table: &[u8], lane: u8, ahead: u64) -> Result<Wait, Refusal> {
    answer(boundary::wait(table, lane, ahead)).map(|[asked, tight, ..]| Wait { asked, tight })
}

/// Gives the fresh table of the same setup, once no record is held. The edition last taken stays.
pub fn restart(table: &mut [u8]) -> Result<(), Refusal> {
    answer(boundary::restart(table)).map(|_| ())
}

/// Runs a session on the lent table; its lines stand in the answer area.
pub fn run(session: &[u8], limit: u64, table: &mut [u8], answers: &mut [u8]) -> Run {
    let (result, [answered, written, kind, place]) = boundary::run(session, limit, table, answers);
    // Kind: 0 the end field, 1 the limit, 2 a refusal that has no place, 3 one that has.
    let stop = match (result, kind) {
        (0, 0) => Stop::End,
        (0, _) => Stop::Limit,
        (number, _) => Stop::Refused(Refusal { number, place: (kind == 3).then_some(place) }),
    };
    Run { answered, written: written as usize, stop }
}
