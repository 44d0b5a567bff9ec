//! The tables of a put and a take, side by side, and of whole sessions.

use crate::sides::{
    assert_fit, counted_run, loads, run_plain, run_unit, Side, What, AREA, PAIRS, RUNS, SESSIONS, SIDES,
};
use crate::spread::{grouped, side_by_side, timed, Batches, BATCHES};
use crate::{head, row};
use compare::linked::Linked;
use compare::loads::{Fill, Load, Weights, REQUESTS};
use compare::unit::Unit;
use std::collections::{BTreeMap, BTreeSet};

/// The tables of the loads, lanes of their own and shared ones apart, with the cells that `cells` gives for a load and its sides.
fn tables(cells: impl Fn(usize, Load, &[Side]) -> Vec<String>) {
    for shared in [false, true] {
        let of_kind = loads().into_iter().enumerate().filter(|(_, load)| load.shared == shared);
        let of_kind: Vec<(usize, Load)> = of_kind.collect();
        let sides: Vec<Side> = SIDES.iter().copied().filter(|side| side.has(of_kind[0].1)).collect();
        let headings = sides.iter().map(|side| side.heading);
        head(&["lanes", "weights", "load"].into_iter().chain(headings).collect::<Vec<_>>());
        for (index, load) in of_kind {
            row([load.to_string()].into_iter().chain(cells(index, load, &sides)));
        }
    }
}

/// The table of whole sessions.
fn runs(cells: impl Fn(usize, Load) -> Vec<String>) {
    head(&["lanes", "weights", "load", RUNS[0].0, RUNS[1].0]);
    for (index, load) in loads().into_iter().enumerate().filter(|(_, load)| !load.shared) {
        row([load.to_string()].into_iter().chain(cells(index, load)));
    }
}

pub fn times() {
    assert_fit();
    println!("\nA put and a take, nanoseconds: the median of {BATCHES} batches of {PAIRS} pairs, and the quartiles; then the same in shared lanes.");
    tables(|_, load, sides| {
        let batches = sides.iter().map(|side| side.batches(load)).collect();
        side_by_side(batches).iter().map(|spread| spread.to_string()).collect()
    });
    println!("\nA session of {REQUESTS} requests, nanoseconds: the median of {BATCHES} batches of {SESSIONS} sessions, and the quartiles.");
    runs(|_, load| {
        let (mut table, mut answers) = (vec![0; Linked.table_size()], vec![0; AREA]);
        let (session, size) = (load.session(load.session_pairs()), table.len());
        let unit: Batches = Box::new(|_| {
            timed(SESSIONS, || (0..SESSIONS).for_each(|_| run_unit(&session, &mut table, &mut answers)))
        });
        let plain: Batches = Box::new(|_| {
            timed(SESSIONS, || (0..SESSIONS).for_each(|_| assert!(run_plain(&session, size) > 0)))
        });
        side_by_side(vec![unit, plain]).iter().map(|spread| spread.to_string()).collect()
    });
}

pub fn instructions() {
    assert_fit();
    println!("\nA put and a take, instructions; then the same in shared lanes.");
    tables(|index, _, sides| sides.iter().map(|side| grouped(side.counted(index).each())).collect());
    println!("\nA session of {REQUESTS} requests, instructions.");
    runs(|index, _| [0, 1].map(|place| grouped(counted_run(place, index).each())).to_vec());
}

/// Of the public calls and of those that stand beside the inner ones, under five of the loads: a table for each side, a row for each function.
pub fn parts() {
    let steady =
        |load: &Load| load.fill == Fill::Steady && (load.lanes != 8 || load.weights == Weights::Mixed);
    let sparse =
        |load: &Load| load.fill == Fill::Sparse && load.lanes == 64 && load.weights == Weights::Mixed;
    let shown = |(_, load): &(usize, Load)| !load.shared && (steady(load) || sparse(load));
    let shown: Vec<(usize, Load)> = loads().into_iter().enumerate().filter(shown).collect();
    for side in SIDES.iter().filter(|side| side.what == What::Public || side.of_linux()) {
        let columns: Vec<_> = shown.iter().map(|(index, _)| side.counted(*index).parts()).collect();
        let functions: BTreeSet<&String> = columns.iter().flat_map(BTreeMap::keys).collect();
        println!("\n{}: instructions of a put and a take, by function.", side.heading);
        let loads: Vec<String> = shown.iter().map(|(_, load)| load.to_string().replace(" |", "")).collect();
        head(&["function"].into_iter().chain(loads.iter().map(String::as_str)).collect::<Vec<_>>());
        for function in functions {
            let cost =
                |column: &BTreeMap<_, f64>| column.get(function).map_or(String::new(), |cost| grouped(*cost));
            row([format!("`{function}`")].into_iter().chain(columns.iter().map(cost)));
        }
    }
}
