//! The comparison's command. `compare help` lists what it does.

mod options;
mod slips;

use compare::driver::report::{Found, Tally};
use compare::driver::{self, Kind as Drawn};
use compare::flips;
use compare::pipes;
use compare::run::kinds::Kind;
use compare::run::progress::Progress;
use compare::run::under_test::UnderTest;
use compare::run::{state, Run, Until, WHOLE};
use compare::unit::Unit;
use options::{options, Options, HELP};
use std::process::ExitCode;

/// The cases of a short run: the numbers of lists, setups, sessions and tables go up to the first of these.
const SHORT: [(Kind, u64); 12] = [
    (Kind::Lists, 20_000),
    (Kind::Makes, 20_000),
    (Kind::Runs, 20_000),
    (Kind::Tables, 20_000),
    (Kind::Boards, 20_000),
    (Kind::Plans, 60_000),
    (Kind::Sheets, 100_000),
    (Kind::Pages, 2_000),
    (Kind::Conversions, 3_000),
    (Kind::Halts, 3_000),
    (Kind::Waits, 200),
    (Kind::Tight, 40),
];
const SESSIONS: u64 = 2_000;

fn main() -> ExitCode {
    let arguments: Vec<String> = std::env::args().skip(1).collect();
    let Some((mode, rest)) = arguments.split_first() else { return help() };
    let Some(options) = options(rest) else { return help() };
    match (mode.as_str(), options.names.is_empty()) {
        ("short", true) => short(&options),
        ("long", true) => long(&options),
        ("one", true) => one(&options),
        ("clock", true) => options.pairs.map_or_else(help, clock),
        ("states", false) => states(&options),
        ("sessions", false) => sessions(&options),
        ("flips", true) => flipped(&options),
        ("slips", true) => slips::all(options.seed),
        (name, true) => Kind::named(name).map_or_else(help, |kind| alone(kind, &options)),
        _ => help(),
    }
}

fn help() -> ExitCode {
    print!("{HELP}");
    ExitCode::from(2)
}

/// What is compared, after a look at its boundary; and that is told.
fn under_test() -> Option<UnderTest> {
    if cfg!(feature = "unit") {
        println!("The unit's library is linked: this run compares it.");
        println!("sha256 {}", state::LIBRARY);
    } else {
        println!("The unit's library is not linked: this run compares the stand-in.");
    }
    UnderTest::new().map_err(|wrong| println!("DIFFERENCE at the boundary: {wrong}")).ok()
}

/// One lane from near where the clock is taken back.
fn near_the_end(units: &mut UnderTest) -> Result<(), ExitCode> {
    match driver::clock::drive_near(&mut units.unit, &mut Tally::default()) {
        Ok(times) => {
            println!("One lane from near the clock's far end: taken back {times} times, drained, restarted.");
            Ok(())
        }
        Err(found) => Err(differs(&found.what)),
    }
}

/// The same cases every time.
fn short(options: &Options) -> ExitCode {
    let Some(mut units) = under_test() else { return ExitCode::FAILURE };
    if let Err(differs) = near_the_end(&mut units) {
        return differs;
    }
    let mut run = Run::new(options.seed, WHOLE);
    for (kind, numbers) in SHORT {
        let result = run.upto(&mut units, kind, numbers, &mut Progress::new(None));
        if let Err((number, found)) = result {
            return told(&run, Err((kind, number, found)));
        }
    }
    told(&run, Ok(()))
}

/// Cases of every kind, until the goals are reached or the time or the cases are spent.
fn long(options: &Options) -> ExitCode {
    let goals = (options.goals != [0; 4]).then_some(options.goals);
    if goals.is_none() && options.cases.is_none() && options.time.is_none() {
        return help();
    }
    go(options, Until { kind: None, goals, cases: options.cases, time: options.time })
}

/// Cases of one kind; `--case N` begins at that number, and is one case if it is not said how many.
fn alone(kind: Kind, options: &Options) -> ExitCode {
    let cases = match (options.cases, options.time, options.case) {
        (None, None, Some(_)) => Some(1),
        (None, None, None) => return help(),
        (cases, ..) => cases,
    };
    go(options, Until { kind: Some(kind), goals: None, cases, time: options.time })
}

fn go(options: &Options, until: Until) -> ExitCode {
    let run = match &options.state {
        Some(path) => state::load_or_new(path, options.seed, options.part),
        None => Ok(Run::new(options.seed, options.part)),
    };
    let mut run = match run {
        Ok(run) => run,
        Err(why) => {
            println!("The state is refused: {why}");
            return ExitCode::from(2);
        }
    };
    if let Some(case) = options.case {
        run.next = run.next.map(|_| case);
    }
    let Some(mut units) = under_test() else { return ExitCode::FAILURE };
    if let Some(Err(differs)) = until.kind.is_none().then(|| near_the_end(&mut units)) {
        return differs;
    }
    let mut progress = Progress::new(options.state.clone());
    let result = run.go(&mut units, until, &mut progress);
    if result.is_ok() {
        progress.save(&run);
    }
    told(&run, result)
}

/// One case of the lists, setups, sessions and tables again, alone.
fn one(options: &Options) -> ExitCode {
    let (Some(case), Some(mut units)) = (options.case, under_test()) else { return help() };
    let mut run = Run::new(options.seed, WHOLE);
    let kinds = |_: Drawn| true;
    let result = driver::one_of(&mut units.unit, options.seed, case, kinds, &mut run.counts.calls);
    told(&run, result.map(|_| ()).map_err(|found| (Kind::Lists, case, found)))
}

/// What several states together have counted.
fn states(options: &Options) -> ExitCode {
    let runs: Result<Vec<Run>, String> =
        options.names.iter().map(|name| state::load(name.as_ref())).collect();
    match runs.and_then(|runs| state::joined(&runs)) {
        Ok(run) => {
            println!("sha256 {}", state::LIBRARY);
            told(&run, Ok(()))
        }
        Err(why) => {
            println!("The states are refused: {why}");
            ExitCode::from(2)
        }
    }
}

fn told(run: &Run, result: Result<(), (Kind, u64, Found)>) -> ExitCode {
    println!("Seed {}, {:.1} s, {}", run.seed, run.spent.as_secs_f64(), run.counts);
    println!("  the closest of all lists: {}", run.counts.closest());
    match result {
        Ok(()) => {
            println!("No difference.");
            ExitCode::SUCCESS
        }
        Err((kind, case, found)) => {
            println!("DIFFERENCE in case {case} of the {} of seed {}", kind.name(), run.seed);
            for line in &found.shown_by {
                println!("  {line}");
            }
            println!("{}", found.what);
            let mode = if kind.drawn().is_some() { "one" } else { kind.name() };
            println!("Again, alone: compare {mode} --seed {} --case {case}", run.seed);
            ExitCode::FAILURE
        }
    }
}

fn differs(what: &str) -> ExitCode {
    println!("DIFFERENCE: {what}");
    ExitCode::FAILURE
}

fn clock(pairs: u64) -> ExitCode {
    let Some(mut units) = under_test() else { return ExitCode::FAILURE };
    let mut tally = Tally::default();
    match driver::clock::drive(&mut units.unit, pairs, &mut tally) {
        Ok(times) => {
            println!("{} calls compared, the clock taken back {times} times: no difference.", tally.calls);
            ExitCode::SUCCESS
        }
        Err(found) => differs(&format!("{:?}: {}", found.shown_by, found.what)),
    }
}

fn flipped(options: &Options) -> ExitCode {
    let Some(mut units) = under_test() else { return ExitCode::FAILURE };
    let unit = &mut units.unit;
    if !unit.documented_layout() {
        println!("The tables of docs/TABLE.md are asked for: build with --features unit.");
        return ExitCode::FAILURE;
    }
    const HEAD: &str = "bits | mean nothing | 10 | of 100 that mean something | unseen | next take differs | differ to the end";
    let mut parts = vec![flips::Count::default(); flips::PARTS.len()];
    println!("| table | {HEAD} |\n|{}", "---|".repeat(8));
    let chosen = |at: usize| options.case.map_or(true, |case| case == at as u64);
    for (_, (name, table)) in flips::tables(unit).into_iter().enumerate().filter(|(at, _)| chosen(*at)) {
        match flips::count(unit, &table, flips::bits()) {
            Ok(counts) => {
                println!("| {name} | {} |", flips::total(&counts));
                parts.iter_mut().zip(&counts).for_each(|(sum, count)| *sum = flips::total(&[*sum, *count]));
            }
            Err(what) => return differs(&what),
        }
    }
    println!("\n| part, in all of these tables | {HEAD} |\n|{}", "---|".repeat(8));
    for ((name, _), count) in flips::PARTS.iter().zip(&parts) {
        println!("| {name} | {count} |");
    }
    ExitCode::SUCCESS
}

fn sessions(options: &Options) -> ExitCode {
    let (first, cases) = match (options.case, options.cases) {
        (Some(case), None) => (case, 1),
        (case, cases) => (case.unwrap_or(0), cases.unwrap_or(SESSIONS)),
    };
    for program in &options.names {
        match pipes::compare(program.as_ref(), options.seed, first, cases) {
            Ok(fed) => println!("{program}: {cases} sessions, {fed} bytes: no difference."),
            Err(difference) => {
                println!("{difference}");
                return ExitCode::FAILURE;
            }
        }
    }
    ExitCode::SUCCESS
}
