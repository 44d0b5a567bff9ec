//! The lag of a lane over the clock.

use super::axis::Axis;
use super::svg::{polyline, Svg};
use super::LAG;
use crate::figures::LINE_RATE;
use crate::trace::{Did, Trace};

/// The lag of a lane over the clock, in slots.
pub fn draw(svg: &mut Svg, trace: &Trace, axis: &Axis, index: usize, top: f64, height: f64) {
    let slot = trace.lanes[index].figures.slot() as f64;
    let points = points_of(trace, index);
    let (least, most) =
        points.iter().fold((0.0f64, 0.0f64), |(least, most), (_, lag)| (least.min(*lag), most.max(*lag)));
    // One scale for all lanes would hide the light ones: each row has its own, told at its right end.
    let span = (most - least).max(slot * 0.05);
    let y = |lag: f64| top + height * (most - lag) / span;
    let zero = y(0.0);
    svg.line(
        axis.left,
        zero,
        axis.right,
        zero,
        "stroke=\"#99a\" stroke-width=\"0.7\" stroke-dasharray=\"2 2\"",
    );
    let mut drawn = vec![(axis.left, zero)];
    drawn.extend(points.iter().map(|(clock, lag)| (axis.x(*clock), y(*lag))));
    drawn.push((axis.right, y(points.last().map_or(0.0, |(_, lag)| *lag))));
    let path = polyline(&drawn);
    svg.add(format_args!(
        "<path d=\"{path}L{:.1} {zero:.1}Z\" fill=\"{LAG}\" fill-opacity=\"0.16\"/>",
        axis.right
    ));
    svg.add(format_args!(
        "<path d=\"{path}\" fill=\"none\" stroke=\"{LAG}\" stroke-width=\"1.3\" stroke-linejoin=\"round\"/>"
    ));
    let says = format!("lag {:.2} to {:.2} slots", least / slot + 0.0, most / slot).replace('-', "\u{2212}");
    svg.words(axis.right + 10.0, top + height - 2.0, 10.0, &format!("fill=\"{LAG}\""), &says);
}

/// Points of clock and lag: it grows with the clock, and falls where the lane gets a new start; an idle lane's does not grow past 0.
fn points_of(trace: &Trace, index: usize) -> Vec<(u64, f64)> {
    let number = trace.lanes[index].number;
    let mut points: Vec<(u64, f64)> = vec![(0, 0.0)];
    let (mut clock, mut lag, mut holds) = (0u64, 0i64, false);
    let grow = |points: &mut Vec<(u64, f64)>, clock: u64, lag: i64, holds: bool, to: u64| {
        let grown = lag.saturating_add((to - clock) as i64);
        if !holds && lag < 0 && grown > 0 {
            points.push((clock + lag.unsigned_abs(), 0.0));
        }
        points.push((to, if holds { grown } else { grown.min(0) } as f64));
    };
    for step in &trace.steps {
        match step.did {
            Did::Sent { lane, length, from, lag: behind, .. } if lane == number => {
                let sent = from + LINE_RATE * (length + trace.framing);
                grow(&mut points, clock, lag, holds, sent);
                points.push((sent, behind as f64));
                grow(&mut points, sent, behind, step.held[index].0 > 0, step.clock);
            }
            Did::Restarted => {}
            _ => grow(&mut points, clock, lag, holds, step.clock),
        }
        (clock, lag, holds) = (step.clock, step.lags[index], step.held[index].0 > 0);
        points.push((clock, lag as f64));
    }
    points
}
