//! Times: the median of many batches and the quartiles about it. Batches are short, so that few of them are interrupted, and are taken in turn, one of each
//! side, so that what else the machine does falls on all of them alike.

use std::fmt;
use std::time::Instant;

pub const BATCHES: usize = 200;

/// Nanoseconds for one of so many.
pub fn timed(count: usize, batch: impl FnOnce()) -> f64 {
    let begun = Instant::now();
    batch();
    begun.elapsed().as_nanos() as f64 / count as f64
}

/// What gives the nanoseconds of one in the batch of that number.
pub type Batches<'a> = Box<dyn FnMut(usize) -> f64 + 'a>;

#[derive(Clone, Copy)]
pub struct Spread {
    low: f64,
    median: f64,
    high: f64,
}

/// One spread for each, taken side by side.
pub fn side_by_side(mut sides: Vec<Batches>) -> Vec<Spread> {
    let mut samples = vec![Vec::new(); sides.len()];
    for batch in 0..BATCHES {
        for (side, samples) in sides.iter_mut().zip(&mut samples) {
            samples.push(side(batch));
        }
    }
    samples.into_iter().map(Spread::of).collect()
}

impl Spread {
    fn of(mut samples: Vec<f64>) -> Spread {
        samples.sort_by(f64::total_cmp);
        let at = |quarters: usize| samples[(samples.len() - 1) * quarters / 4];
        Spread { low: at(1), median: at(2), high: at(3) }
    }
}

impl fmt::Display for Spread {
    fn fmt(&self, f: &mut fmt::Formatter) -> fmt::Result {
        write!(f, "{} ({} to {})", grouped(self.median), grouped(self.low), grouped(self.high))
    }
}

/// A whole number with a comma after each three digits.
pub fn grouped(number: f64) -> String {
    let digits = format!("{number:.0}");
    let mut text = String::new();
    for (index, digit) in digits.chars().enumerate() {
        if index > 0 && (digits.len() - index) % 3 == 0 && !text.ends_with('-') {
            text.push(',');
        }
        text.push(digit);
    }
    text
}
