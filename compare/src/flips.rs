//! One bit of a good table turned over, every bit in turn: is it seen? A call on the table gives 10; or the table is a good one of other contents, and the
//! calls go on from there; or the bit means nothing. docs/SAFETY.md has the shares.
//!
//! Whether a call gives 10 is asked of the unit. Whether the contents are others is asked of [`layout`], which reads docs/TABLE.md by itself, and must say
//! "good" exactly where the unit does not give 10. Whether an answer changes is asked of the unit again: the next take of every such table, and all that can
//! be heard of some of them until they are empty.

use crate::calls::Taken;
use crate::layout::{self, KEPT, TABLE_SIZE};
use crate::numbers::{refusal, DEPTH, LANES, TRAINS, TRAIN_DEPTH};
use crate::rng::Rng;
use crate::shown::Ask;
use crate::unit::Unit;
use std::fmt;

/// Of so many tables with other contents one is heard to its end, and of those with the same contents.
const HEARD: u64 = 40;
const HEARD_SAME: u64 = 2_000;

/// The parts of a table, each up to its end.
pub const PARTS: [(&str, usize); 8] = [
    ("clock, lanes, depth, h", 640),
    ("rows of the lanes", 2_688),
    ("lengths", 10_880),
    ("groups and slot lists", 45_056),
    ("marks", 61_440),
    ("trains", KEPT),
    ("editions, waiting plan", layout::part::END),
    ("free", TABLE_SIZE),
];

#[derive(Clone, Copy, Default, Debug, PartialEq, Eq)]
pub struct Count {
    pub bits: u64,
    /// A call on the table gives 10.
    pub seen: u64,
    /// It gives none, and the table has other contents.
    pub other: u64,
    /// Of these, the next take answers otherwise.
    pub next: u64,
    /// Those that were heard to the end, and those of them in which some answer is another one.
    pub heard: u64,
    pub told: u64,
}

impl Count {
    fn add(&mut self, more: Count) {
        self.bits += more.bits;
        self.seen += more.seen;
        self.other += more.other;
        self.next += more.next;
        self.heard += more.heard;
        self.told += more.told;
    }
}

impl fmt::Display for Count {
    fn fmt(&self, f: &mut fmt::Formatter) -> fmt::Result {
        let means = self.seen + self.other;
        let share = if means == 0 { 0.0 } else { 100.0 * self.seen as f64 / means as f64 };
        let Count { bits, seen, other, next, heard, told } = self;
        write!(f, "{bits} | {} | {seen} | {share:.1} % | {other} | {next} | {told} of {heard}", bits - means)
    }
}

/// The tables that are damaged, each with what it is.
pub fn tables<U: Unit>(unit: &mut U) -> Vec<(&'static str, Vec<u8>)> {
    let mut rng = Rng::new(20);
    let plain = setup(64, false);
    let fresh = made(unit, &plain);

    let mut half = fresh.clone();
    for round in 0..DEPTH / 2 + 1 {
        // the odd lanes send their one record and are idle then
        (0..LANES)
            .filter(|lane| lane % 2 == 0 || round == 0)
            .for_each(|lane| put(unit, &mut half, lane, 0, &mut rng));
    }
    while (1..LANES)
        .step_by(2)
        .any(|lane| unit.show(&mut half, Ask::Backlog(lane)).expect("shown").expect("there")[0] > 0)
    {
        unit.take(&mut half).expect("a record is held");
    }

    let mut full = fresh.clone();
    for _ in 0..DEPTH {
        (0..LANES).for_each(|lane| put(unit, &mut full, lane, 0, &mut rng));
    }
    for _ in 0..1_000 {
        let lane = unit.take(&mut full).expect("a record is held").lane;
        put(unit, &mut full, lane, 0, &mut rng);
    }

    let mut shared = made(unit, &setup(64, true));
    for _ in 0..TRAIN_DEPTH / 2 {
        for lane in 0..LANES {
            (0..TRAINS).for_each(|train| put(unit, &mut shared, lane, train, &mut rng));
        }
    }
    for _ in 0..1_000 {
        let Taken { lane, train, .. } = unit.take(&mut shared).expect("a record is held");
        put(unit, &mut shared, lane, train, &mut rng);
    }

    let mut waiting = made(unit, &setup(8, false));
    for _ in 0..4 {
        (0..8).for_each(|lane| put(unit, &mut waiting, lane, 0, &mut rng));
    }
    let [high, low] = (plain.len() as u16).to_be_bytes();
    let page = [&[0x40, 0, 2, 0, 7, 0x41, high, low][..], &plain, &[0x7F, 0, 0]].concat();
    assert_eq!(unit.offer(&mut waiting, &page), crate::calls::Answer::Waits);

    vec![
        ("fresh, 64 lanes", fresh),
        ("half full: 32 of 64 lanes hold records", half),
        ("full: 64 lanes with 64 records each", full),
        ("64 shared lanes, 8 trains in each", shared),
        ("8 lanes with 4 records each, a page waits", waiting),
    ]
}

/// Lanes of mixed weights and two longests; format 1.
fn setup(lanes: u8, shared: bool) -> Vec<u8> {
    let mut bytes = vec![0x01, 0, 2, 0, 1];
    for lane in 0..lanes {
        let weight = [1, 2, 3, 5, 8, 13, 21, 34][usize::from(lane % 8)];
        let [high, low] = [1_500_u16, 576][usize::from(lane / 8 % 2)].to_be_bytes();
        bytes.extend([0x10, 0, 5, lane, 0, weight, high, low]);
        if shared {
            bytes.extend([0x12, 0, 1, lane]);
        }
    }
    bytes.extend([0x7F, 0, 0]);
    bytes
}

fn made<U: Unit>(unit: &mut U, setup: &[u8]) -> Vec<u8> {
    let mut table = vec![0; unit.table_size()];
    unit.make(setup, &mut table).expect("a valid setup");
    table
}

fn put<U: Unit>(unit: &mut U, table: &mut [u8], lane: u8, train: u8, rng: &mut Rng) {
    let mark = rng.word() as u32;
    let length = rng.between(1, 576);
    unit.put_train(table, lane, train, mark, length).expect("a put that is accepted");
}

/// All bits of a table.
pub fn bits() -> std::ops::Range<usize> {
    0..8 * TABLE_SIZE
}

/// Some bits of a table, by its parts; or what differs between the unit and the reader of docs/TABLE.md.
pub fn count<U: Unit>(
    unit: &mut U,
    base: &[u8],
    bits: impl Iterator<Item = usize>,
) -> Result<Vec<Count>, String> {
    let contents = layout::read(base).good().ok_or("the table itself is not good")?;
    let (next, whole) = (unit.take(&mut base.to_vec()), heard(unit, base));
    let mut counts = vec![Count::default(); PARTS.len()];
    let (mut others, mut sames) = (0, 0);
    let (mut table, mut work) = (base.to_vec(), base.to_vec());
    for bit in bits {
        let (at, turned) = (bit / 8, 1 << (bit % 8));
        let part = PARTS.iter().position(|(_, end)| at < *end).expect("a part for each byte");
        table[at] ^= turned;
        let mut count = Count { bits: 1, ..Count::default() };
        if unit.lag(&mut table, 0) == Err(refusal::NOT_GOOD) {
            count.seen = 1;
            if layout::read(&table).good().is_some() {
                return Err(format!("bit {bit}: the unit gives 10, and the table is good by its page"));
            }
        } else {
            let is = layout::read(&table).good();
            let is =
                is.ok_or_else(|| format!("bit {bit}: the unit takes a table that is not good by its page"))?;
            work.copy_from_slice(&table);
            let answers = unit.take(&mut work) != next;
            let other = !is.alike(&contents);
            let listen = if other { others % HEARD == 0 } else { sames % HEARD_SAME == 0 };
            let tells = listen && heard(unit, &table) != whole;
            if !other && (answers || tells) {
                return Err(format!("bit {bit}: the same contents, and an answer is another one"));
            }
            if other {
                others += 1;
                count = Count {
                    other: 1,
                    next: answers.into(),
                    heard: listen.into(),
                    told: tells.into(),
                    ..count
                };
            } else {
                sames += 1;
            }
        }
        counts[part].add(count);
        table[at] ^= turned;
    }
    Ok(counts)
}

pub fn total(counts: &[Count]) -> Count {
    counts.iter().fold(Count::default(), |mut sum, count| {
        sum.add(*count);
        sum
    })
}

/// All that a host can hear of a table without putting more: what it shows, sets and lags, each take until nothing is held, and what it shows then.
fn heard<U: Unit>(unit: &mut U, table: &[u8]) -> Vec<Result<[u64; 4], u8>> {
    let mut table = table.to_vec();
    let mut all = around(unit, &mut table);
    loop {
        match unit.take(&mut table) {
            Ok(Taken { lane, train, mark, length }) => {
                all.push(Ok([lane.into(), train.into(), mark.into(), length]))
            }
            Err(number) => {
                all.push(Err(number));
                break;
            }
        }
    }
    all.extend(around(unit, &mut table));
    all
}

fn around<U: Unit>(unit: &mut U, table: &mut [u8]) -> Vec<Result<[u64; 4], u8>> {
    let mut all = vec![unit.sets(table)];
    for lane in 0..LANES {
        all.push(unit.lag(table, lane).map(|lag| [lag as u64, 0, 0, 0]));
        all.extend(unit.show(table, Ask::Lane(lane)));
        all.push(
            unit.show(table, Ask::Backlog(lane))
                .map_or(Err(0), |shown| shown.map(|words| [words[0], 0, 0, 0])),
        );
    }
    all.extend(unit.show(table, Ask::Edition));
    all
}
