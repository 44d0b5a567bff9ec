//! The slot lists, which hold the tie order, and the groups' starts.

use super::{asked, holding, rounded, Wrong};
use crate::layout::{self, bits, Row, Table};
use crate::text::thousands;
use std::collections::BTreeMap;

pub fn wrong(table: &Table) -> Option<Wrong> {
    let back = table.word(layout::BACK);
    let wrong = asked(back % (1 << 31) == 0 && back < 1 << 36, layout::BACK, || {
        format!("{} were taken off the clock, which is no multiple of 2^31 below 2^36", thousands(back))
    });
    if wrong.is_some() {
        return wrong;
    }
    // The lanes that were met, with the list in which each stands.
    let mut met: BTreeMap<u8, (u32, u32)> = BTreeMap::new();
    for group in bits(table.word(layout::MARKED)) {
        if !layout::GROUPS.contains(&group) {
            return Some(Wrong(layout::MARKED, format!("group {group} is marked, and groups are 16 to 31")));
        }
        let marks = table.word(layout::lists(group));
        let wrong = asked(marks != 0, layout::lists(group), || {
            format!("group {group} is marked, and none of its lists is")
        })
        .or_else(|| {
            asked(marks >> layout::LISTS == 0, layout::lists(group), || {
                format!("group {group}: a list over 31 is marked")
            })
        })
        .or_else(|| bits(marks).find_map(|list| one_list(table, group, list, &mut met)))
        .or_else(|| group_start(table, group, &met));
        if wrong.is_some() {
            return wrong;
        }
    }
    let left_out = holding(table).into_iter().find(|lane| !met.contains_key(lane))?;
    Some(Wrong(layout::MARKED, format!("lane {left_out} holds records, and stands in no list")))
}

/// The list in which a lane that holds records belongs.
fn list_of(table: &Table, row: &Row) -> u32 {
    let slots = (u128::from(row.time) + u128::from(table.word(layout::BACK))) >> row.group;
    (slots % u128::from(layout::LISTS)) as u32
}

fn one_list(table: &Table, group: u32, list: u32, met: &mut BTreeMap<u8, (u32, u32)>) -> Option<Wrong> {
    let at = layout::standing(group, list);
    let name = format!("list {list} of group {group}");
    let lanes = table.list(group, list);
    if lanes.is_empty() {
        return Some(Wrong(at, format!("{name} is marked, and no lane stands in it")));
    }
    let holding = holding(table);
    for lane in lanes {
        if !holding.contains(&lane) {
            let says = if lane > 63 { "63 is the last" } else { "it holds no record" };
            return Some(Wrong(at, format!("{name}: lane {lane} stands in it, and {says}")));
        }
        if let Some((other, place)) = met.insert(lane, (group, list)) {
            return Some(Wrong(
                at,
                format!("{name}: lane {lane} stands in it, and in list {place} of group {other}"),
            ));
        }
        let row = table.row(lane);
        let (own, place) = (row.group, list_of(table, &row));
        if (own, place) != (u64::from(group), list) {
            let says =
                format!("{name}: lane {lane} stands in it, and belongs in list {place} of group {own}");
            return Some(Wrong(at, says));
        }
    }
    None
}

fn group_start(table: &Table, group: u32, met: &BTreeMap<u8, (u32, u32)>) -> Option<Wrong> {
    let own = met.iter().filter(|(_, (other, _))| *other == group);
    let least = own.map(|(lane, _)| rounded(&table.row(*lane))).min()?;
    let start = table.word(layout::start(group));
    asked(start == least, layout::start(group), || {
        format!(
            "group {group}: its start is {}, and the least of its lanes' is {}",
            thousands(start),
            thousands(least)
        )
    })
}
