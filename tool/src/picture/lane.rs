//! The row of a lane: what waits in it, what it sends, and its lag.

use super::axis::Axis;
use super::svg::{area, cross, Svg};
use super::{lags, legend, GREY, RIGHT, SENT};
use crate::figures::LINE_RATE;
use crate::text::{count, thousands};
use crate::trace::{Did, Trace};
use zenfrosta::RefusalKind;

/// How a lane's row is parted, by the number of lanes.
#[derive(Clone, Copy)]
pub struct Row {
    waiting: f64,
    sent: f64,
    lag: f64,
    gap: f64,
}

impl Row {
    pub fn of(lanes: usize) -> Row {
        match lanes {
            0..=4 => Row { waiting: 44.0, sent: 22.0, lag: 44.0, gap: 14.0 },
            5..=12 => Row { waiting: 26.0, sent: 14.0, lag: 26.0, gap: 10.0 },
            _ => Row { waiting: 14.0, sent: 10.0, lag: 14.0, gap: 6.0 },
        }
    }

    pub fn height(self) -> f64 {
        self.waiting + self.sent + self.lag + self.gap
    }
}

/// Draws a lane's row at its top; `most` are the bytes that fill the part of what waits.
pub fn draw(svg: &mut Svg, trace: &Trace, axis: &Axis, index: usize, row: Row, top: f64, most: u64) {
    let lane = &trace.lanes[index];
    let number = lane.number;
    let tall = row.height() >= 60.0;
    let waiting_base = top + row.waiting;
    let sent_top = waiting_base + 1.0;
    let lag_top = sent_top + row.sent + 2.0;
    if index % 2 == 0 {
        svg.add(format_args!(
            "<rect x=\"12\" y=\"{:.1}\" width=\"{:.1}\" height=\"{:.1}\" fill=\"#223\" fill-opacity=\"0.035\"/>",
            top - row.gap / 2.0,
            axis.right + RIGHT - 24.0,
            row.height()
        ));
    }
    let grey = format!("fill=\"{GREY}\"");
    svg.words(20.0, top + 13.0, 12.0, "font-weight=\"bold\"", &format!("lane {number}"));
    let shared = if lane.plan.shared { ", shared" } else { "" };
    let weight = format!("weight {}{shared}", thousands(u64::from(lane.plan.weight)));
    svg.words(20.0, top + 27.0, 10.5, &grey, &weight);
    if tall {
        svg.words(
            20.0,
            top + 41.0,
            10.5,
            &grey,
            &format!("longest {}", thousands(u64::from(lane.plan.longest))),
        );
        svg.words(20.0, top + 55.0, 10.5, &grey, &format!("group {}", lane.figures.group));
    }
    let values: Vec<(u64, u64)> = trace.steps.iter().map(|step| (step.clock, step.held[index].1)).collect();
    area(svg, axis, &values, waiting_base, row.waiting, most);
    svg.line(axis.left, waiting_base, axis.right, waiting_base, "stroke=\"#99a\" stroke-width=\"0.5\"");
    let mut total = 0;
    let lane_shared = lane.plan.shared;
    for step in &trace.steps {
        match step.did {
            Did::Sent { lane, train, mark, length, from, .. } if lane == number => {
                total += length;
                let of = if lane_shared { format!(" of train {train}") } else { String::new() };
                let name = format!("lane {lane} sends record {mark}{of}");
                let colour = if lane_shared { legend::TRAINS[usize::from(train) % 8] } else { SENT };
                record(svg, trace, axis, (&name, colour), (mark, length, from), sent_top, row.sent);
            }
            Did::PutRefused { lane, number: no } if lane == number => {
                let words = RefusalKind::of(no).map_or("", RefusalKind::words);
                let title = format!("a put to lane {lane} is refused with {no}: {words}");
                cross(svg, axis.x(step.clock), waiting_base - row.waiting / 2.0, 3.5, &title);
            }
            _ => {}
        }
    }
    let held =
        trace.steps.iter().map(|step| step.held[index]).max_by_key(|(_, bytes)| *bytes).unwrap_or((0, 0));
    let peak =
        if held.0 == 0 { "nothing waits".to_string() } else { format!("most {}", count(held.1, "byte")) };
    svg.words(axis.right + 10.0, top + 10.0, 10.0, "", &peak);
    svg.words(
        axis.right + 10.0,
        sent_top + row.sent - 1.5,
        10.0,
        "",
        &format!("sent {}", count(total, "byte")),
    );
    lags::draw(svg, trace, axis, index, lag_top, row.lag);
}

fn record(
    svg: &mut Svg,
    trace: &Trace,
    axis: &Axis,
    (name, colour): (&str, &str),
    (mark, length, from): (u32, u64, u64),
    top: f64,
    height: f64,
) {
    let to = from + LINE_RATE * (length + trace.framing);
    let x = axis.x(from);
    let width = (axis.x(to) - x).max(0.8);
    svg.add(format_args!(
        "<rect x=\"{x:.1}\" y=\"{top:.1}\" width=\"{width:.1}\" height=\"{height:.1}\" fill=\"{colour}\" stroke=\"#fff\" stroke-width=\"{}\">\
         <title>{name}, {length} bytes, at {} to {}</title></rect>",
        if width > 3.0 { 0.8 } else { 0.0 },
        thousands(from / LINE_RATE),
        thousands(to / LINE_RATE)
    ));
    let words = mark.to_string();
    let size = (height - 1.0).min(11.0);
    if width >= size * 0.68 * words.len() as f64 + 4.0 {
        let middle = x + width / 2.0;
        svg.words(
            middle,
            top + height / 2.0 + size * 0.36,
            size,
            "text-anchor=\"middle\" fill=\"#fff\"",
            &words,
        );
    }
}
