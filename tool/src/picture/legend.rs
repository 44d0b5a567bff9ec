//! The legend, in as many rows as the width asks for.

use super::svg::{cross, Svg};
use super::{LAG, SENT, WAITING};
use crate::trace::Trace;

/// The colours of what the trains of a shared lane send; train 0's is that of a lane that is not shared.
pub const TRAINS: [&str; 8] =
    [SENT, "#8a3b12", "#4b2e83", "#0b6b6b", "#7a1f5c", "#4f6212", "#5b4636", "#a3324a"];

const ROW: f64 = 18.0;
const LEFT: f64 = 20.0;
/// From one train's box to the next.
const STEP: f64 = 18.0;

enum Sign {
    Waiting,
    Sent,
    Trains,
    Lag,
    Refused,
    Jump,
}

impl Sign {
    fn width(&self) -> f64 {
        match self {
            Sign::Trains => STEP * TRAINS.len() as f64,
            _ => 22.0,
        }
    }

    fn draw(&self, svg: &mut Svg, x: f64, y: f64) {
        let mut rect = |x: f64, width: f64, colour: &str| {
            svg.add(format_args!(
                "<rect x=\"{x}\" y=\"{}\" width=\"{width}\" height=\"10\" fill=\"{colour}\"/>",
                y - 9.0
            ));
        };
        match self {
            Sign::Waiting => rect(x, 22.0, WAITING),
            Sign::Sent => rect(x, 22.0, SENT),
            Sign::Jump => rect(x, 22.0, "#e4e4ea"),
            Sign::Lag => {
                svg.line(x, y - 4.0, x + 22.0, y - 4.0, &format!("stroke=\"{LAG}\" stroke-width=\"2\""))
            }
            Sign::Refused => cross(svg, x + 11.0, y - 4.0, 4.0, ""),
            Sign::Trains => {
                for (train, colour) in TRAINS.iter().enumerate() {
                    let x = x + STEP * train as f64;
                    rect(x, STEP - 2.0, colour);
                }
                for train in 0..TRAINS.len() {
                    let x = x + STEP * train as f64 + STEP / 2.0 - 1.0;
                    svg.words(x, y - 0.5, 9.0, "text-anchor=\"middle\" fill=\"#fff\"", &train.to_string());
                }
            }
        }
    }
}

/// What the picture's signs say, each with its place: how far right, and in which row.
pub struct Legend(Vec<(f64, f64, Sign, &'static str)>);

impl Legend {
    pub fn of(trace: &Trace, width: f64) -> Legend {
        let mut signs =
            vec![(Sign::Waiting, "bytes that wait"), (Sign::Sent, "a record sent, with its mark")];
        if trace.lanes.iter().any(|lane| lane.plan.shared) {
            signs.push((Sign::Trains, "of a train in a shared lane"));
        }
        signs.extend([
            (Sign::Lag, "lag in slots: above the line the clock is past the lane's start"),
            (Sign::Refused, "a put refused"),
            (Sign::Jump, "the clock jumps"),
        ]);
        let (mut x, mut row) = (LEFT, 0.0);
        let mut placed = Vec::new();
        for (sign, words) in signs {
            let next = sign.width() + 10.0 + 5.9 * words.len() as f64;
            if x > LEFT && x + next > width {
                (x, row) = (LEFT, row + 1.0);
            }
            placed.push((x, row, sign, words));
            x += next + 16.0;
        }
        Legend(placed)
    }

    /// How much the rows behind the first take.
    pub fn more(&self) -> f64 {
        self.0.last().map_or(0.0, |(_, row, ..)| ROW * row)
    }

    /// Draws it, with the first row at `y`.
    pub fn draw(&self, svg: &mut Svg, y: f64) {
        for (x, row, sign, words) in &self.0 {
            let y = y + ROW * row;
            sign.draw(svg, *x, y);
            svg.words(x + sign.width() + 6.0, y, 11.0, "", words);
        }
    }
}
