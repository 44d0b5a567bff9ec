//! docs/TABLE.md's slot lists, read by themselves: which lanes stand in which list, whether that agrees with the lanes, and how lists are written. The
//! lists are held to the page's definition: each lane that holds records stands once, in the list of its group and its S, and each group's start is the
//! least R of its lanes. How the unit tests it plays no part.

use crate::layout::{set_word, word, Clause};
use crate::rules::{Lane, State};

/// Groups are 16 to 31, and each has 32 lists.
pub const GROUPS: std::ops::RangeInclusive<u32> = 16..=31;
pub const LISTS: u32 = 32;

/// Where the words lie: the groups that have lanes, and B.
pub const MARKED: usize = 1_360;
pub const BACK: usize = 1_361;

pub fn start(group: u32) -> usize {
    1_360 + group as usize
}

pub fn marks(group: u32) -> usize {
    1_376 + group as usize
}

/// Where the bytes of a list's ring lie.
pub fn ring(group: u32, list: u32) -> usize {
    (LISTS * (group - GROUPS.start()) + list) as usize
}

pub fn first_place(ring: usize) -> usize {
    11_264 + ring
}

pub fn number(ring: usize) -> usize {
    11_776 + ring
}

pub fn place(ring: usize, place: usize) -> usize {
    12_288 + 64 * ring + place % 64
}

/// B is a multiple of 2^31 below 2^36.
pub fn may_be_back(back: u64) -> bool {
    back % (1 << 31) == 0 && back < 1 << 36
}

/// The B that is stored for what was taken off so far, which is a multiple of 2^31.
pub fn stored(back: i128) -> u64 {
    let back = back.rem_euclid(1 << 36);
    (back - back % (1 << 31)) as u64
}

/// The list in which a lane belongs, by the clock that was never taken back.
pub fn list_of(lane: &Lane, back: u64) -> u32 {
    ((lane.start + i128::from(back)) >> lane.group) as u32 % LISTS
}

/// The set bits of a word, the lowest first.
fn bits(mut value: u64) -> impl Iterator<Item = u32> {
    std::iter::from_fn(move || {
        let lowest = (value != 0).then(|| value.trailing_zeros())?;
        value &= value - 1;
        Some(lowest)
    })
}

/// The marked groups that are groups at all.
pub fn groups(bytes: &[u8]) -> Vec<u32> {
    bits(word(bytes, MARKED)).filter(|group| GROUPS.contains(group)).collect()
}

/// The marked lists of such a group.
pub fn lists(bytes: &[u8], group: u32) -> Vec<u32> {
    bits(word(bytes, marks(group))).filter(|list| *list < LISTS).collect()
}

/// What stands in a list's ring, the first first.
pub fn lanes(bytes: &[u8], group: u32, list: u32) -> Vec<u8> {
    in_list(bytes, group, list).collect()
}

fn in_list(bytes: &[u8], group: u32, list: u32) -> impl Iterator<Item = u8> + '_ {
    let ring = ring(group, list);
    let first = usize::from(bytes[first_place(ring)]);
    (0..usize::from(bytes[number(ring)])).map(move |i| bytes[place(ring, first + i)])
}

/// Everything that stands in a marked list, as (group, list, lane), in the order of the bytes.
pub fn standing(bytes: &[u8]) -> Vec<(u32, u32, u8)> {
    let mut all = vec![];
    for group in groups(bytes) {
        for list in lists(bytes, group) {
            all.extend(in_list(bytes, group, list).map(|lane| (group, list, lane)));
        }
    }
    all
}

/// The clauses that the lists break, of a table with these lanes.
pub fn broken(bytes: &[u8], lanes_read: &[Lane]) -> Vec<Clause> {
    let back = word(bytes, BACK);
    let holding = || lanes_read.iter().filter(|lane| lane.holds());
    let empty = |group: u32| {
        let none = |list: &u32| bytes[number(ring(group, *list))] == 0;
        word(bytes, marks(group)) == 0
            || word(bytes, marks(group)) >> LISTS != 0
            || lists(bytes, group).iter().any(none)
    };
    let astray = bits(word(bytes, MARKED)).any(|group| !GROUPS.contains(&group));
    let mut found = standing(bytes);
    found.sort_unstable();
    let mut wanted: Vec<(u32, u32, u8)> =
        holding().map(|lane| (lane.group, list_of(lane, back), lane.plan.number)).collect();
    wanted.sort_unstable();
    let late = |group: u32| {
        let least = holding().filter(|lane| lane.group == group).map(|lane| lane.rounded_start).min();
        least.is_some_and(|least| least != i128::from(word(bytes, start(group))))
    };
    let clauses = [
        (Clause::Back, !may_be_back(back)),
        (Clause::Marks, astray || groups(bytes).into_iter().any(empty)),
        (Clause::Lists, found != wanted),
        (Clause::Starts, groups(bytes).into_iter().any(late)),
    ];
    clauses.into_iter().filter(|(_, breaks)| *breaks).map(|(clause, _)| clause).collect()
}

/// Writes the lists of contents: the words and bytes that mean something, and no other. A ring begins at the place that the bytes have for it. Lanes whose
/// group is none are left out.
pub fn write(state: &State, bytes: &mut [u8]) {
    let back = stored(state.back);
    set_word(bytes, BACK, back);
    let mut order: Vec<&Lane> = state.holding().filter(|lane| GROUPS.contains(&lane.group)).collect();
    order.sort_by_key(|lane| lane.since);
    set_word(bytes, MARKED, order.iter().fold(0, |marked, lane| marked | 1 << lane.group));
    for group in groups(bytes) {
        let own = || order.iter().filter(|lane| lane.group == group);
        let least = own().map(|lane| lane.rounded_start).min().expect("a marked group has lanes");
        set_word(bytes, start(group), u64::try_from(least).expect("a clock word"));
        set_word(bytes, marks(group), own().fold(0, |marked, lane| marked | 1 << list_of(lane, back)));
        for list in lists(bytes, group) {
            let ring = ring(group, list);
            let here: Vec<u8> =
                own().filter(|lane| list_of(lane, back) == list).map(|lane| lane.plan.number).collect();
            bytes[number(ring)] = here.len() as u8;
            let first = usize::from(bytes[first_place(ring)]);
            for (i, lane) in here.into_iter().enumerate() {
                bytes[place(ring, first + i)] = lane;
            }
        }
    }
}
