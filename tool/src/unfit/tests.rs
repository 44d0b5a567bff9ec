//! The explanation held to the library: a damaged table is explained exactly where it is refused.

use super::*;
use crate::noise::Noise;
use std::collections::BTreeSet;
use zenfrosta::{Plan, PlanLane, OLD_TABLE_SIZE, TABLE_SIZE};

fn lane(weight: u16, longest: u16, shared: bool) -> Option<PlanLane> {
    Some(PlanLane { weight, longest, shared })
}

/// A table of four lanes, two of them shared, with records in some.
fn made(noise: &mut Noise) -> Vec<u8> {
    let mut plan = Plan::new();
    plan.framing = [0, 20, 64][noise.below(3)];
    plan.lanes[0] = lane(512, 1_500, false);
    plan.lanes[3] = lane(16, 64, true);
    plan.lanes[40] = lane(16, 64, false);
    plan.lanes[63] = lane(100, 576, true);
    let mut table = vec![0xA5; TABLE_SIZE];
    zenfrosta::make(&plan.to_setup().expect("a setup"), &mut table).expect("a table");
    for mark in 0..noise.below(60) as u32 {
        let lane = [0, 3, 40, 63][noise.below(4)];
        let train = if [3, 63].contains(&lane) { noise.below(8) as u8 } else { 0 };
        let _ = zenfrosta::put_train(&mut table, lane, train, mark, 1 + noise.below(64) as u64);
        if noise.below(3) == 0 {
            let _ = zenfrosta::take(&mut table);
        }
    }
    if noise.below(2) == 0 {
        zenfrosta::offer(&mut table, &plan.to_page(7).expect("a page")).expect("a newer page");
    }
    table
}

/// The bytes that mean something in such a table, and some that do not.
fn places() -> Vec<usize> {
    let rows = [0, 3, 40, 63].map(|lane: u8| layout::setting(lane)..layout::setting(lane) + 32);
    let lengths = [0, 3, 40, 63].map(|lane: u8| layout::lengths(lane)..layout::lengths(lane) + 128);
    let trains = [3, 63].map(|lane: u8| layout::train(lane, 0)..layout::train(lane, 8));
    let words = [0..40, layout::MARKED..layout::MARKED + 512, layout::LAST_EDITION..layout::PAGE_PLAN + 520];
    let rings = [layout::standing(16, 0) - 512..layout::standing(16, 0) + 512 + 64 * 512];
    // Often in the small parts, seldom in the lists' rings.
    let often = words.into_iter().chain(rows).chain(trains).flatten();
    let often: Vec<usize> = often.collect();
    let once = lengths.into_iter().chain(rings).flatten();
    std::iter::repeat(often).take(60).flatten().chain(once).collect()
}

#[test]
fn explained_exactly_where_refused() {
    let mut noise = Noise(19);
    let places = places();
    let (mut good, mut refused) = (0, 0);
    let mut kinds = BTreeSet::new();
    for _ in 0..400 {
        let table = made(&mut noise);
        assert_eq!(why(&table), None);
        for _ in 0..60 {
            let mut damaged = table.clone();
            for _ in 0..1 + noise.below(2) {
                let at = places[noise.below(places.len())];
                match noise.below(3) {
                    0 => damaged[at] ^= 1 << noise.below(8),
                    1 => damaged[at] = damaged[at].wrapping_add(1),
                    _ => damaged[at] = damaged[at].wrapping_sub(1),
                }
            }
            let verdict = zenfrosta::clock(&damaged);
            let said = why(&damaged);
            assert_eq!(verdict.is_err(), said.is_some(), "{verdict:?}, {said:?}");
            match said {
                None => good += 1,
                Some(said) => {
                    refused += 1;
                    kinds.insert(said.replace(|letter: char| letter.is_ascii_digit() || letter == ',', ""));
                }
            }
        }
    }
    assert!(good > 1_000 && refused > 5_000, "{good} good, {refused} refused");
    assert!(kinds.len() >= 40, "{} kinds of reasons: {kinds:#?}", kinds.len());
}

/// A table of 16 places in a lane, with what waits in the lanes that are not shared: written from one of today.
fn made_before(noise: &mut Noise) -> Vec<u8> {
    let mut plan = Plan::new();
    plan.framing = [0, 20, 64][noise.below(3)];
    plan.lanes[0] = lane(512, 1_500, false);
    plan.lanes[3] = lane(16, 64, false);
    plan.lanes[63] = lane(100, 576, false);
    let mut table = vec![0xA5; TABLE_SIZE];
    zenfrosta::make(&plan.to_setup().expect("a setup"), &mut table).expect("a table");
    for mark in 0..noise.below(40) as u32 {
        let lane = [0, 3, 63][noise.below(3)];
        if zenfrosta::backlog(&table, lane).expect("a lane").records < 16 {
            zenfrosta::put(&mut table, lane, mark, 1 + noise.below(64) as u64).expect("room");
        }
        if noise.below(3) == 0 {
            let _ = zenfrosta::take(&mut table);
        }
    }
    let mut old = table[..OLD_TABLE_SIZE].to_vec();
    let mut set = |at: usize, word: u64| old[at..at + 8].copy_from_slice(&word.to_le_bytes());
    for number in [0, 3, 63] {
        let (setting, held) =
            (zenfrosta::lane(&table, number).expect("a lane"), zenfrosta::backlog(&table, number));
        let c = 1_048_576_u64.div_ceil(setting.weight);
        set(layout::setting(number), setting.longest | setting.weight << 16 | setting.group << 32 | c << 40);
        let held = held.expect("a lane").records;
        set(layout::ring(number), 15 + 16 * held);
        for before in 0..held {
            let record = zenfrosta::waiting(&table, number, before).expect("a record");
            let place = (15 + before) % 16;
            set(layout::lengths(number) + 8 * place as usize, u64::from(record.mark) | record.length << 32);
        }
    }
    old
}

#[test]
fn old_ones_too() {
    let mut noise = Noise(23);
    let places: Vec<usize> = places().into_iter().filter(|at| *at < OLD_TABLE_SIZE).collect();
    let (mut good, mut refused) = (0, 0);
    let mut new = vec![0; TABLE_SIZE];
    for _ in 0..200 {
        let table = made_before(&mut noise);
        assert_eq!(zenfrosta::convert(&table, &mut new), Ok(()));
        assert_eq!(why(&table), None);
        for _ in 0..40 {
            let mut damaged = table.clone();
            let at = places[noise.below(places.len())];
            damaged[at] ^= 1 << noise.below(8);
            let (verdict, said) = (zenfrosta::convert(&damaged, &mut new), why(&damaged));
            assert_eq!(verdict.is_err(), said.is_some(), "{verdict:?}, {said:?}");
            match said {
                None => good += 1,
                Some(_) => refused += 1,
            }
        }
    }
    assert!(good > 1_000 && refused > 500, "{good} good, {refused} refused");
}

/// What is said of a table in which a byte has another value.
fn with(change: impl FnOnce(&mut [u8])) -> String {
    let mut noise = Noise(5);
    let mut table = made(&mut noise);
    while zenfrosta::look(&table).is_err() {
        table = made(&mut noise);
    }
    change(&mut table);
    assert!(zenfrosta::clock(&table).is_err());
    why(&table).expect("a reason")
}

#[test]
fn reasons() {
    assert_eq!(
        with(|table| table[layout::DEPTH] = 16),
        "byte 24: the depth number is 16, and not 64: a table of another kind, or none"
    );
    assert_eq!(with(|table| table[layout::PRESENT..][..8].fill(0)), "byte 8: no lane is in the setup");
    assert_eq!(with(|table| table[layout::FRAMING] = 65), "byte 32: 65 framing bytes, and 64 is the most");
    assert_eq!(
        with(|table| table[layout::setting(40) + 2] = 0),
        "byte 1,920: lane 40: the weight 0 is not 1 to 1,024"
    );
    assert_eq!(
        with(|table| table[layout::setting(40) + 3] = 2),
        "byte 1,920: lane 40: with its weight 528 the weights sum to 1,056, and 1,024 is the most"
    );
    assert!(with(|table| table[layout::CLOCK + 7] = 0x50).ends_with("and not below 2^62 + 2^44"));
    let noise = with(|table| table.fill(0xA5));
    assert!(noise.starts_with("byte 24: the depth number is 11,936,128,518,282,651,045,"), "{noise}");
}
