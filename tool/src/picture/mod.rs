//! A trace as an SVG picture. `zenfrosta picture --help` says what it shows.

mod axis;
mod lags;
mod lane;
mod legend;
mod svg;

use crate::figures::LINE_RATE;
use crate::text::{count, thousands};
use crate::trace::{Did, Step, Trace};
use axis::Axis;
use lane::Row;
use legend::Legend;
use svg::{escaped, Svg};

// Colours that stay apart in print and for most eyes.
const WAITING: &str = "#f3b562";
const SENT: &str = "#1f4e79";
const LAG: &str = "#2a7f62";
const REFUSED: &str = "#b3202a";
const GREY: &str = "#667";

// Room in pixels: for the lanes' names, for their figures, for the title and legend, and for what waits in all lanes.
const LEFT: f64 = 150.0;
const RIGHT: f64 = 150.0;
const HEAD: f64 = 118.0;
const ALL: f64 = 66.0;

/// The picture.
pub fn svg(trace: &Trace, title: &str, width: f64) -> String {
    let row = Row::of(trace.lanes.len());
    let axis = Axis::of(trace, LEFT, width - RIGHT);
    let legend = Legend::of(trace, width);
    let begin = HEAD + legend.more();
    let top = begin + ALL + 40.0;
    let bottom = top + row.height() * trace.lanes.len() as f64;
    let height = bottom + 46.0;
    let mut svg = Svg { text: String::new() };
    svg.add(format_args!(
        "<svg xmlns=\"http://www.w3.org/2000/svg\" width=\"{width}\" height=\"{height}\" viewBox=\"0 0 {width} {height}\" \
         font-family=\"DejaVu Sans, Verdana, Arial, sans-serif\" fill=\"#223\">"
    ));
    svg.add(format_args!("<title>{}</title>", escaped(title)));
    svg.add(format_args!("<rect width=\"{width}\" height=\"{height}\" fill=\"#fff\"/>"));
    head(&mut svg, trace, title, width, &legend);
    jumps(&mut svg, &axis, begin, bottom);
    ruler(&mut svg, &axis, begin, bottom);
    all_lanes(&mut svg, trace, &axis, begin);
    jump_labels(&mut svg, &axis, begin);
    let most = trace.steps.iter().flat_map(|step| &step.held).map(|(_, bytes)| *bytes).max().unwrap_or(0);
    for index in 0..trace.lanes.len() {
        lane::draw(&mut svg, trace, &axis, index, row, top + row.height() * index as f64, most);
    }
    for step in trace.steps.iter().filter(|step| step.did == Did::Restarted) {
        let x = axis.x(step.clock);
        svg.line(x, begin, x, bottom, &format!("stroke=\"{REFUSED}\" stroke-dasharray=\"5 4\""));
        svg.words(x + 3.0, begin + 10.0, 10.0, &format!("fill=\"{REFUSED}\""), "restart");
    }
    svg.text.push_str("</svg>\n");
    svg.text
}

fn head(svg: &mut Svg, trace: &Trace, title: &str, width: f64, legend: &Legend) {
    let puts = trace.steps.iter().filter(|step| matches!(step.did, Did::Put { .. })).count() as u64;
    let sent: Vec<u64> = trace.steps.iter().filter_map(sent_length).collect();
    let framing = if trace.framing == 0 {
        String::new()
    } else {
        format!(", {} framing bytes for each record", trace.framing)
    };
    svg.words(20.0, 30.0, 18.0, "font-weight=\"bold\"", title);
    let says = format!(
        "{}, {} put, {} sent, {}{framing}",
        count(trace.lanes.len() as u64, "lane"),
        count(puts, "record"),
        thousands(sent.len() as u64),
        count(sent.iter().sum(), "byte"),
    );
    svg.words(20.0, 50.0, 12.0, &format!("fill=\"{GREY}\""), &says);
    legend.draw(svg, 74.0);
    svg.words(
        (LEFT + width - RIGHT) / 2.0,
        HEAD + legend.more() - 24.0,
        11.0,
        &format!("text-anchor=\"middle\" fill=\"{GREY}\""),
        "clock, in bytes of the line (V / 1,024)",
    );
}

fn sent_length(step: &Step) -> Option<u64> {
    match step.did {
        Did::Sent { length, .. } => Some(length),
        _ => None,
    }
}

fn jumps(svg: &mut Svg, axis: &Axis, top: f64, bottom: f64) {
    for part in axis.parts.iter().filter(|part| part.jump && part.width >= 0.5) {
        let by = thousands((part.to - part.from) / LINE_RATE);
        svg.add(format_args!(
            "<rect x=\"{:.1}\" y=\"{top}\" width=\"{:.1}\" height=\"{:.1}\" fill=\"#e4e4ea\"><title>the clock jumps by {by}</title></rect>",
            part.x,
            part.width,
            bottom - top
        ));
    }
}

/// How far the broken jumps go, where there is room to write it.
fn jump_labels(svg: &mut Svg, axis: &Axis, top: f64) {
    for part in axis.parts.iter().filter(|part| part.broken && part.width >= 12.0) {
        let by = thousands((part.to - part.from) / LINE_RATE);
        let x = part.x + part.width / 2.0 + 4.0;
        let y = top + 4.0;
        let rest = format!(
            "text-anchor=\"end\" transform=\"rotate(-90 {x:.1} {y:.1})\" stroke=\"#fff\" stroke-width=\"3\" paint-order=\"stroke\""
        );
        svg.words(x, y, 10.0, &rest, &format!("+{by}"));
    }
}

fn ruler(svg: &mut Svg, axis: &Axis, top: f64, bottom: f64) {
    for (tick, x) in axis.ticks() {
        svg.line(x, top - 4.0, x, bottom + 4.0, "stroke=\"#d5d5dd\" stroke-width=\"0.8\"");
        for y in [top - 8.0, bottom + 18.0] {
            svg.words(x, y, 10.5, "text-anchor=\"middle\"", &thousands(tick));
        }
    }
    let middle = (axis.left + axis.right) / 2.0;
    svg.words(
        middle,
        bottom + 36.0,
        11.0,
        &format!("text-anchor=\"middle\" fill=\"{GREY}\""),
        "clock, in bytes of the line (V / 1,024)",
    );
}

fn all_lanes(svg: &mut Svg, trace: &Trace, axis: &Axis, top: f64) {
    let values: Vec<(u64, u64)> =
        trace.steps.iter().map(|step| (step.clock, step.held.iter().map(|(_, bytes)| bytes).sum())).collect();
    let most = values.iter().map(|(_, bytes)| *bytes).max().unwrap_or(0);
    let base = top + ALL + 12.0;
    svg::area(svg, axis, &values, base, ALL, most);
    svg.line(axis.left, base, axis.right, base, "stroke=\"#99a\" stroke-width=\"0.8\"");
    svg.words(20.0, base - ALL + 12.0, 12.0, "font-weight=\"bold\"", "all lanes");
    svg.words(20.0, base - ALL + 28.0, 10.5, &format!("fill=\"{GREY}\""), "bytes that wait");
    svg.words(axis.right + 10.0, base - ALL + 12.0, 10.5, "", &format!("most {}", count(most, "byte")));
}
