//! The tables of every public call by itself.

use crate::callgrind::Counted;
use crate::scenes::{scene, BOARDS, SCENES};
use crate::spread::{grouped, side_by_side, timed, Batches};
use crate::{head, row};
use compare::loads::DEPTH;

/// The calls of a batch.
const CALLS: usize = 50;

/// Of each call of a scene its label and function, its instructions, and its time where it has one.
fn measured(name: &str) -> Vec<[String; 4]> {
    let made = scene(name);
    let kept: Vec<_> = made.iter().map(|made| (made.label, made.function, made.alone)).collect();
    let batches = made.into_iter().map(|mut made| -> Batches {
        Box::new(move |_| timed(CALLS, || (0..CALLS).for_each(|_| (made.once)())))
    });
    let times = side_by_side(batches.collect());
    let each = |(call, ((label, function, alone), time)): (usize, ((_, &str, bool), _))| {
        let words = ["call".to_string(), name.to_string(), call.to_string()].to_vec();
        let instructions = Counted { words, functions: &[function], numbers: [4, 20] }.each();
        let time = if alone { format!("{time}") } else { String::new() };
        [format!("{label}"), format!("`{function}`"), grouped(instructions), time]
    };
    kept.into_iter().zip(times).enumerate().map(each).collect()
}

/// One table of several scenes with the same calls: instructions of each, then times.
fn table(scenes: &[&str], headings: &[&str]) {
    let columns: Vec<_> = scenes.iter().map(|name| measured(name)).collect();
    let times = headings.iter().map(|heading| format!("{heading}, ns").replace("instructions, ", ""));
    let headings: Vec<String> = headings.iter().map(|heading| heading.to_string()).chain(times).collect();
    head(&["call", "function"].into_iter().chain(headings.iter().map(String::as_str)).collect::<Vec<_>>());
    for (call, [label, function, ..]) in columns[0].iter().enumerate() {
        let cells = |place: usize| columns.iter().map(move |column| column[call][place].clone());
        row([label.clone(), function.clone()].into_iter().chain(cells(2)).chain(cells(3)));
    }
}

pub fn all() {
    println!("\nEvery call by itself, instructions, and nanoseconds: the median of batches of {CALLS} calls, and the quartiles.");
    table(&SCENES[..3], &["1 lane", "8 lanes", "64 lanes"]);
    println!("\nThe small halt's table with {DEPTH} records in each lane, by the scheduler's calls and by the halt's own.");
    table(&SCENES[3..4], &["instructions"]);
    println!(
        "\nBoards, by how many trains are on them and how they are numbered: instructions, and nanoseconds."
    );
    table(&SCENES[4..], &BOARDS.map(|(name, _, _)| name));
}
