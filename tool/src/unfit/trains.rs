//! The trains of a shared lane that holds records: its round, and a number for each.

use super::{asked, Wrong};
use crate::layout::{self, Row, Table};
use crate::text::{count, thousands};

pub fn wrong(table: &Table, lane: u8, row: &Row) -> Option<Wrong> {
    let (named, mut round) = table.round(lane);
    let at = layout::round(lane);
    if !(1..=8).contains(&named) {
        return Some(Wrong(
            at,
            format!("lane {lane}: the round counts {}, and not 1 to 8", count(named, "train")),
        ));
    }
    let behind = round.split_off(named as usize);
    let wrong = round
        .iter()
        .find(|train| **train > 7)
        .map(|train| Wrong(at, format!("lane {lane}: the round names train {train}, and 7 is the last")))
        .or_else(|| {
            asked(behind.iter().all(|number| *number == 0), at, || {
                format!("lane {lane}: the round has a number behind its {}", count(named, "train"))
            })
        });
    if wrong.is_some() {
        return wrong;
    }
    for number in 0..layout::TRAINS {
        let train = table.train(lane, number);
        let (at, who) = (layout::train(lane, number), format!("lane {lane}, train {number}"));
        let turns = round.iter().filter(|named| **named == number).count();
        let first = table.first_length(lane, number);
        let wrong = asked(train.held <= layout::TRAIN_ROOM, at, || {
            format!(
                "{who}: it counts {}, and has room for {}",
                count(train.held, "record"),
                layout::TRAIN_ROOM
            )
        })
        .or_else(|| {
            asked(turns == usize::from(train.held > 0), layout::round(lane), || {
                let holds = if train.held > 0 { "holds records" } else { "holds none" };
                format!("{who}: it {holds}, and the round names it {}", count(turns as u64, "time"))
            })
        })
        .or_else(|| match (train.held > 0, round.first() == Some(&number)) {
            (false, _) => asked(train.deficit == 0, at, || {
                format!("{who}: it holds nothing, and has a deficit of {}", thousands(train.deficit))
            }),
            (true, true) => asked((first..2 * row.longest).contains(&train.deficit), at, || {
                format!(
                    "{who}: in turn with a deficit of {}, and not {} to {}",
                    thousands(train.deficit),
                    thousands(first),
                    thousands(2 * row.longest - 1)
                )
            }),
            (true, false) => asked(train.deficit < first, at, || {
                format!(
                    "{who}: not in turn, with a deficit of {} for a first record of {}",
                    thousands(train.deficit),
                    count(first, "byte")
                )
            }),
        });
        if wrong.is_some() {
            return wrong;
        }
    }
    let held: u64 = (0..layout::TRAINS).map(|number| table.train(lane, number).held).sum();
    asked(held == row.held, layout::ring(lane), || {
        format!("lane {lane}: it counts {}, and its trains hold {held}", count(row.held, "record"))
    })
}
