//! The page's part: the editions, and the plan of a page that waits.

use super::{asked, holding, Wrong};
use crate::layout::{self, Table};
use crate::text::thousands;

pub fn wrong(table: &Table) -> Option<Wrong> {
    let (last, new) = (table.word(layout::LAST_EDITION), table.word(layout::NEW_EDITION));
    let edition = |number: u64, at: usize, which: &str| {
        asked(number <= 65_535, at, || {
            format!("the edition {which} is {}, and 65,535 is the most", thousands(number))
        })
    };
    edition(last, layout::LAST_EDITION, "last taken")
        .or_else(|| edition(new, layout::NEW_EDITION, "of a page that waits"))
        .or_else(|| {
            if new == 0 {
                return None;
            }
            asked(new > last, layout::NEW_EDITION, || {
                format!("a page of edition {new} waits, which is not above the last one, {last}")
            })
            .or_else(|| {
                asked(!holding(table).is_empty(), layout::NEW_EDITION, || {
                    format!("a page of edition {new} waits, and no record is held")
                })
            })
            .or_else(|| plan(table))
        })
}

/// The plan of the page that waits, in the words of a plan area.
fn plan(table: &Table) -> Option<Wrong> {
    let at = layout::PAGE_PLAN;
    let head = table.word(at);
    let wrong = asked([1, 2].contains(&(head & 0xFFFF)), at, || {
        format!("the page that waits has format {}, and not 1 or 2", head & 0xFFFF)
    })
    .or_else(|| {
        asked(head >> 16 <= 64, at, || {
            format!("the page that waits has {} framing bytes, and 64 is the most", thousands(head >> 16))
        })
    });
    if wrong.is_some() {
        return wrong;
    }
    let mut weights = 0;
    for lane in 0..64_u8 {
        let at = layout::PAGE_PLAN + 8 * (usize::from(lane) + 1);
        let word = table.word(at);
        if word == 0 {
            continue;
        }
        let (weight, longest) = (word & 0xFFFF, word >> 16 & 0xFFFF);
        weights += weight;
        let within = (1..=1_024).contains(&weight) && (64..=1_500).contains(&longest) && word >> 33 == 0;
        let wrong = asked(within, at, || {
            format!("the page that waits: lane {lane} has numbers that no setup has (weight {weight}, longest {longest})")
        })
        .or_else(|| {
            asked(weights <= 1_024, at, || {
                format!("the page that waits: with lane {lane} the weights sum to {}", thousands(weights))
            })
        });
        if wrong.is_some() {
            return wrong;
        }
    }
    asked(weights > 0, at, || "the page that waits has no lane".into())
}
