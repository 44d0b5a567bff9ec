//! The command's options.

use compare::run::{Goals, Part, WHOLE};
use std::path::PathBuf;
use std::time::Duration;

pub const HELP: &str = "\
compare short [--seed N]                       about a minute, the same cases every time
compare long [--calls N] [--inputs N] [--tables N] [--conversions N] [--cases N] [--seconds N]
             [--seed N] [--part K/N] [--state FILE]
                                               cases of every kind until all goals are reached, or so many cases, or so long; with a part
                                               those alone whose numbers leave K by N. The state is written every half minute, and a later
                                               run with the same file goes on with it
compare KIND --seconds N | --cases N [--seed N] [--case N] [--part K/N] [--state FILE]
                                               cases of one kind, from number --case on; that one alone if it is not said how many:
                                               lists, waits, tight    lists of calls; those in which a record waits, or a lane comes near its bound
                                               makes, runs, pages     setups, sessions, settings pages
                                               plans, sheets, boards  setups and sheets in plan areas, the desk's board
                                               tables, halts          tables that no call made, the small halt
                                               conversions            tables of 16 places taken over
compare states FILE...                         what several runs have counted, taken together
compare one --seed N --case N                  one case of lists, makes, runs and tables again, alone
compare sessions PROGRAM... [--cases N] [--seed N] [--case N]
                                               sessions by pipe; --case N begins at that case
compare clock --pairs N                        one lane, N pairs of put and take: the clock is taken back once in some 1,466 million
compare flips [--case N]                       each bit of some tables, or of table N of them, turned over: how many are seen
compare slips [--seed N]                       each slip and each lapse, and the case that finds it
";

const SEED: u64 = 1;

pub struct Options {
    pub seed: u64,
    pub case: Option<u64>,
    pub cases: Option<u64>,
    pub time: Option<Duration>,
    pub pairs: Option<u64>,
    /// Calls, inputs, tables, conversions; 0 for none.
    pub goals: Goals,
    pub part: Part,
    pub state: Option<PathBuf>,
    /// What is no option: programs, or states.
    pub names: Vec<String>,
}

pub fn options(arguments: &[String]) -> Option<Options> {
    let mut options = Options {
        seed: SEED,
        case: None,
        cases: None,
        time: None,
        pairs: None,
        goals: [0; 4],
        part: WHOLE,
        state: None,
        names: vec![],
    };
    let mut arguments = arguments.iter();
    while let Some(argument) = arguments.next() {
        let Some(name) = argument.strip_prefix("--") else {
            options.names.push(argument.clone());
            continue;
        };
        let value = arguments.next()?;
        let number = || value.replace(['_', ','], "").parse().ok();
        match name {
            "seed" => options.seed = number()?,
            "case" => options.case = Some(number()?),
            "cases" => options.cases = Some(number()?),
            "seconds" => options.time = Some(Duration::from_secs(number()?)),
            "pairs" => options.pairs = Some(number()?),
            "calls" => options.goals[0] = number()?,
            "inputs" => options.goals[1] = number()?,
            "tables" => options.goals[2] = number()?,
            "conversions" => options.goals[3] = number()?,
            "part" => options.part = part(value)?,
            "state" => options.state = Some(value.into()),
            _ => return None,
        }
    }
    // A case is a number of the whole row.
    let whole = options.part == WHOLE && options.state.is_none();
    (options.case.is_none() || whole).then_some(options)
}

/// K/N, K below N.
fn part(value: &str) -> Option<Part> {
    let (at, of) = value.split_once('/')?;
    let part = Part { at: at.parse().ok()?, of: of.parse().ok()? };
    (part.at < part.of).then_some(part)
}
