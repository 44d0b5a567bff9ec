//! The benchmark: what the unit's calls cost, beside Linux's packet schedulers and this folder's plain rules, in one process run. Every line makes the same
//! loads (`loads`). What it prints are the tables of docs/PERFORMANCE.md.
//!
//!     bench times            nanoseconds of a put and a take, side by side, with their spread
//!     bench instructions     instructions of a put and a take, counted by valgrind's callgrind, of the same loads
//!     bench calls            every public call by itself, the small halt's and the board's too: instructions, and times where it can be made alone
//!     bench parts            instructions of a put and a take, of the public calls and of Linux's schedulers, by function
//!     bench same             nothing is measured: public and inner calls do the same work and Linux's schedulers are fair, or it stops
//!
//! With the feature `linux` Linux's schedulers are linked (`linux/build`); without it their columns are not there.

mod callgrind;
mod calls;
mod pairs;
mod scenes;
mod sides;
mod spread;

fn main() {
    let arguments: Vec<String> = std::env::args().skip(1).collect();
    let words: Vec<&str> = arguments.iter().map(String::as_str).collect();
    match words[..] {
        ["times"] => pairs::times(),
        ["instructions"] => pairs::instructions(),
        ["calls"] => calls::all(),
        ["parts"] => pairs::parts(),
        ["same"] => sides::same(),
        // What callgrind runs: so many of one thing.
        ["count", number, "pair", side, load] => sides::count(number.parse().expect("how many"), side, load),
        ["count", number, "call", scene, call] => {
            scenes::count(number.parse().expect("how many"), scene, call)
        }
        _ => println!("bench times | bench instructions | bench calls | bench parts | bench same"),
    }
}

/// A row of a table.
pub fn row(cells: impl IntoIterator<Item = String>) {
    println!("| {} |", cells.into_iter().collect::<Vec<_>>().join(" | "));
}

/// A table's first two lines.
pub fn head(cells: &[&str]) {
    println!();
    row(cells.iter().map(|cell| cell.to_string()));
    println!("{}|", "|---".repeat(cells.len()));
}
