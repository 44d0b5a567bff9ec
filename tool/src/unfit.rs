//! What is wrong with a table that every call refuses with 10: the first condition of docs/TABLE.md that its bytes break, in words. The library's verdict
//! decides; this explains it.

use crate::fault::Fault;
use crate::files::Input;
use crate::layout::{self, Row, Table};
use crate::plans;
use crate::text::{count, thousands};
use zenfrosta::{refusals::NOT_GOOD, Refusal, TABLE_SIZE};

mod lists;
mod page;
#[cfg(test)]
mod tests;
mod trains;

/// A refusal of an input that is a table by its length, or an old one: in a second line what is wrong with it, where the refusal is 10.
pub fn fault(input: &Input, refusal: Refusal) -> Fault {
    input.fault(words(input, refusal))
}

pub fn words(input: &Input, refusal: Refusal) -> String {
    let words = plans::words(refusal);
    if refusal.number != NOT_GOOD {
        return words;
    }
    let why = why(&input.bytes).unwrap_or_else(|| "what is wrong is not known to this tool".to_string());
    format!("{words}\n{}: {why}", input.name)
}

/// The first condition that the bytes of a table break, with the place of a number in it; nothing where none is found. A shorter table is one from before
/// lanes had room for 64 records.
pub fn why(bytes: &[u8]) -> Option<String> {
    let table = Table { bytes, old: bytes.len() < TABLE_SIZE };
    let wrong = head(&table).or_else(|| lanes(&table)).or_else(|| lists::wrong(&table)).or_else(|| {
        if table.old {
            None
        } else {
            page::wrong(&table)
        }
    });
    wrong.map(|Wrong(at, says)| format!("byte {}: {says}", thousands(at as u64)))
}

/// What is wrong, and where.
struct Wrong(usize, String);

/// A condition that must hold.
fn asked(holds: bool, at: usize, says: impl FnOnce() -> String) -> Option<Wrong> {
    (!holds).then(|| Wrong(at, says()))
}

fn head(table: &Table) -> Option<Wrong> {
    let depth = table.word(layout::DEPTH);
    let clock = table.word(layout::CLOCK);
    let framing = table.word(layout::FRAMING);
    let far = if table.old { 42 } else { 44 };
    asked(table.old || depth == layout::ROOM, layout::DEPTH, || {
        format!(
            "the depth number is {}, and not {}: a table of another kind, or none",
            thousands(depth),
            layout::ROOM
        )
    })
    .or_else(|| asked(table.word(layout::PRESENT) != 0, layout::PRESENT, || "no lane is in the setup".into()))
    .or_else(|| {
        asked(framing <= 64, layout::FRAMING, || {
            format!("{} framing bytes, and 64 is the most", thousands(framing))
        })
    })
    .or_else(|| {
        asked(clock < (1 << 62) + (1 << far), layout::CLOCK, || {
            format!("the clock is at {}, and not below 2^62 + 2^{far}", thousands(clock))
        })
    })
}

fn lanes(table: &Table) -> Option<Wrong> {
    let mut weights = 0;
    for lane in table.present() {
        let row = table.row(lane);
        let wrong = numbers(lane, &row)
            .or_else(|| {
                weights += row.weight;
                asked(weights <= 1_024, layout::setting(lane), || {
                    format!(
                        "lane {lane}: with its weight {} the weights sum to {}, and 1,024 is the most",
                        row.weight,
                        thousands(weights)
                    )
                })
            })
            .or_else(|| pace(table, lane, &row))
            .or_else(|| waiting(table, lane, &row))
            .or_else(|| time(table, lane, &row));
        if wrong.is_some() {
            return wrong;
        }
    }
    let holding = holding(table);
    let clock = table.word(layout::CLOCK);
    let eligible = holding.iter().any(|lane| rounded(&table.row(*lane)) <= clock);
    asked(eligible || holding.is_empty(), layout::CLOCK, || {
        format!(
            "no lane could be served: the clock is at {}, before the start of every lane that holds records",
            thousands(clock)
        )
    })
}

fn holding(table: &Table) -> Vec<u8> {
    table.present().into_iter().filter(|lane| table.row(*lane).held > 0).collect()
}

fn numbers(lane: u8, row: &Row) -> Option<Wrong> {
    asked((1..=1_024).contains(&row.weight), layout::setting(lane), || {
        format!("lane {lane}: the weight {} is not 1 to 1,024", row.weight)
    })
    .or_else(|| {
        asked((64..=1_500).contains(&row.longest), layout::setting(lane), || {
            format!("lane {lane}: the longest {} is not 64 to 1,500", row.longest)
        })
    })
}

/// c and the group that follow from a lane's weight and longest.
fn pace_of(table: &Table, row: &Row) -> (u64, u64) {
    let c = 1_048_576_u64.div_ceil(row.weight);
    let charge = (row.longest + table.word(layout::FRAMING)) * c;
    (c, u64::from(charge.next_power_of_two().trailing_zeros()))
}

fn pace(table: &Table, lane: u8, row: &Row) -> Option<Wrong> {
    if row.held == 0 && !table.old && !layout::IDLE_HAS_PACE {
        return None;
    }
    let (c, group) = pace_of(table, row);
    asked(row.c == c, layout::pace(lane), || {
        format!(
            "lane {lane}: its c is {}, and that of weight {} is {}",
            thousands(row.c),
            row.weight,
            thousands(c)
        )
    })
    .or_else(|| {
        asked(row.group == group, layout::pace(lane), || {
            format!("lane {lane}: its group is {}, and that of its weight and longest is {group}", row.group)
        })
    })
}

fn waiting(table: &Table, lane: u8, row: &Row) -> Option<Wrong> {
    if row.held == 0 {
        return None;
    }
    asked(row.shared || row.held <= table.room(), layout::ring(lane), || {
        format!("lane {lane}: it counts {}, and has room for {}", count(row.held, "record"), table.room())
    })
    .or_else(|| {
        let place = table
            .places(lane)
            .into_iter()
            .find(|place| !(1..=row.longest).contains(&table.length(lane, *place)))?;
        let length = table.length(lane, place);
        Some(Wrong(
            table.length_at(lane, place),
            format!(
                "lane {lane}: place {place} has the length {}, and not 1 to the lane's longest, {}",
                thousands(length),
                thousands(row.longest)
            ),
        ))
    })
    .or_else(|| row.shared.then(|| trains::wrong(table, lane, row)).flatten())
}

/// R of a lane that holds records: its S, with the remainder by its slot taken off.
fn rounded(row: &Row) -> u64 {
    row.time >> row.group << row.group
}

fn time(table: &Table, lane: u8, row: &Row) -> Option<Wrong> {
    let clock = i128::from(table.word(layout::CLOCK));
    let (_, group) = pace_of(table, row);
    let two_slots = 2_i128 << group;
    let margin = 1_024 * (1_500 + i128::from(table.word(layout::FRAMING)));
    let name = if row.held > 0 { "S" } else { "F" };
    let said = |edge: &str| {
        format!(
            "lane {lane}: its {name} is {}, {edge} the clock at {}",
            thousands(row.time),
            thousands(clock as u64)
        )
    };
    asked(i128::from(row.time) < clock + two_slots, layout::time(lane), || said("two slots or more ahead of"))
        .or_else(|| {
            let behind = i128::from(row.time >> group << group) <= clock - two_slots - margin;
            asked(row.held == 0 || !behind, layout::time(lane), || said("too far behind"))
        })
}
