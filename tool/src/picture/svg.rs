//! The elements that pictures are made of.

use super::axis::Axis;
use super::{REFUSED, WAITING};
use std::fmt::Write;

pub struct Svg {
    pub text: String,
}

impl Svg {
    pub fn add(&mut self, element: std::fmt::Arguments<'_>) {
        self.text.write_fmt(element).expect("a String takes all");
        self.text.push('\n');
    }

    pub fn words(&mut self, x: f64, y: f64, size: f64, rest: &str, words: &str) {
        self.add(format_args!(
            "<text x=\"{x:.1}\" y=\"{y:.1}\" font-size=\"{size}\" {rest}>{}</text>",
            escaped(words)
        ));
    }

    pub fn line(&mut self, x1: f64, y1: f64, x2: f64, y2: f64, rest: &str) {
        self.add(format_args!("<line x1=\"{x1:.1}\" y1=\"{y1:.1}\" x2=\"{x2:.1}\" y2=\"{y2:.1}\" {rest}/>"));
    }
}

pub fn escaped(words: &str) -> String {
    words
        .chars()
        .map(|letter| match letter {
            '&' => "&amp;".to_string(),
            '<' => "&lt;".to_string(),
            '>' => "&gt;".to_string(),
            '"' => "&quot;".to_string(),
            // XML has no other control characters.
            letter if letter.is_control() => " ".to_string(),
            letter => letter.to_string(),
        })
        .collect()
}

pub fn cross(svg: &mut Svg, x: f64, y: f64, size: f64, title: &str) {
    let (l, r, t, b) = (x - size, x + size, y - size, y + size);
    let title = if title.is_empty() { String::new() } else { format!("<title>{}</title>", escaped(title)) };
    svg.add(format_args!(
        "<path d=\"M{l:.1} {t:.1}L{r:.1} {b:.1}M{l:.1} {b:.1}L{r:.1} {t:.1}\" stroke=\"{REFUSED}\" stroke-width=\"1.8\" fill=\"none\">{title}</path>"
    ));
}

/// Steps of a number over the clock, from the axis' left end to its right, as a closed area above `base`.
pub fn area(svg: &mut Svg, axis: &Axis, values: &[(u64, u64)], base: f64, height: f64, most: u64) {
    if most == 0 {
        return;
    }
    let y =
        |value: u64| if value == 0 { base } else { base - (height * value as f64 / most as f64).max(2.5) };
    let mut path = format!("M{:.1} {base:.1}", axis.left);
    let mut level = base;
    for (clock, value) in values {
        let x = axis.x(*clock);
        let next = y(*value);
        if (next - level).abs() > 0.01 {
            write!(path, "L{x:.1} {level:.1}L{x:.1} {next:.1}").expect("a String takes all");
            level = next;
        }
    }
    write!(path, "L{:.1} {level:.1}L{:.1} {base:.1}Z", axis.right, axis.right).expect("a String takes all");
    svg.add(format_args!("<path d=\"{path}\" fill=\"{WAITING}\"/>"));
}

/// A path through the points; those that lie on the way from the one before to the one behind are left out.
pub fn polyline(points: &[(f64, f64)]) -> String {
    let mut kept: Vec<(f64, f64)> = Vec::new();
    for &(x, y) in points {
        if let [.., (x0, y0), (x1, y1)] = kept[..] {
            // Twice the area of the three: 0 where they are in a line.
            let area = (x1 - x0) * (y - y0) - (x - x0) * (y1 - y0);
            let onward = (x - x1) * (x1 - x0) + (y - y1) * (y1 - y0) >= 0.0;
            if area.abs() < 0.2 && onward {
                kept.pop();
            }
        }
        kept.push((x, y));
    }
    let mut path = String::new();
    for (i, (x, y)) in kept.iter().enumerate() {
        write!(path, "{}{x:.1} {y:.1}", if i == 0 { 'M' } else { 'L' }).expect("a String takes all");
    }
    path
}
