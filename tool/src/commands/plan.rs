//! `zenfrosta plan`: a plan as a table, with what each lane gets and how long its records can wait.

use crate::args::Args;
use crate::fault::Fault;
use crate::figures::{seconds, Figures, LINE_RATE};
use crate::files::{self, Input};
use crate::plans;
use crate::text::{count, table, thousands};
use zenfrosta::{Plan, PlanLane, TABLE_SIZE};

pub const HELP: &str = "\
zenfrosta plan [FILE] [--rate BITS] [--ahead N] [-o FILE]

Shows a plan of lanes as a table. FILE is a text sheet, the bytes of a setup, of a settings page or of a session, or a
session's text; standard input if none is named.

  --rate BITS   the line's rate in bits a second: waits in seconds too
  --ahead N     waits with so many records of the same lane before it, each of the lane's longest (0); in a shared
                lane so many of the same train, 7 at most
  -o FILE       write to a file

  share         of the line, when every lane has something to send
  at least      of the line in the long run, whatever the others do, while this lane has something to send
  c             clock units for a byte of the lane
  group         the group index; the slot is 2^group
  worst wait    all lanes together send fewer bytes than this, framing counted, from a put until its record is
                handed out
  shared        up to 8 trains share the lane and take turns by bytes
";

pub fn run(words: &[String]) -> Result<u8, Fault> {
    let args = Args::read("plan", words, &["--rate", "--ahead", "--output"], &[])?;
    let rate = args.number("--rate", 1, 1_000_000_000_000)?;
    let ahead = args.number("--ahead", 0, 63)?.unwrap_or(0);
    let plan = plans::read(&Input::read(args.file()?)?)?;
    files::write(&args, shown(&plan, rate, ahead).as_bytes())?;
    Ok(0)
}

/// Tenths of a percent, rounded down.
fn percent(part: u64, whole: u64) -> String {
    let tenths = part * 1_000 / whole;
    format!("{}.{}%", tenths / 10, tenths % 10)
}

/// The fresh table of a plan, of which the library tells the waits.
fn made(plan: &Plan) -> Option<Vec<u8>> {
    let mut fresh = vec![0; TABLE_SIZE];
    zenfrosta::make(&plan.to_setup().ok()?, &mut fresh).ok()?;
    Some(fresh)
}

pub fn shown(plan: &Plan, rate: Option<u64>, ahead: u64) -> String {
    let lanes: Vec<(usize, PlanLane)> =
        plan.lanes.iter().enumerate().filter_map(|(i, lane)| lane.map(|lane| (i, lane))).collect();
    let sum: u64 = lanes.iter().map(|(_, lane)| u64::from(lane.weight)).sum();
    let mut text = format!(
        "format {}, {}, {}, weights sum to {} of 1,024\n\n",
        plan.format,
        count(u64::from(plan.framing), "framing byte"),
        count(lanes.len() as u64, "lane"),
        thousands(sum)
    );
    let mut head = ["lane", "weight", "share", "at least", "longest", "c", "group", "worst wait"]
        .map(String::from)
        .to_vec();
    let shared = lanes.iter().any(|(_, lane)| lane.shared);
    if shared {
        head.push("shared".to_string());
    }
    if let Some(rate) = rate {
        head.push(format!("at {} bit/s", thousands(rate)));
    }
    let fresh = made(plan);
    let mut rows = vec![head];
    for (number, lane) in lanes {
        let weight = u64::from(lane.weight);
        let figures = Figures::of(lane.weight, lane.longest, plan.framing);
        // None where no accepted put reports so many ahead: a train's queue has 8 records.
        let wait =
            fresh.as_ref().and_then(|t| zenfrosta::wait(t, number as u8, ahead).ok()).map(|wait| wait.asked);
        let mut row = vec![
            number.to_string(),
            thousands(weight),
            percent(weight, sum),
            percent(LINE_RATE, figures.c),
            thousands(u64::from(lane.longest)),
            thousands(figures.c),
            figures.group.to_string(),
            wait.map_or("-".to_string(), thousands),
        ];
        if shared {
            row.push(if lane.shared { "yes" } else { "no" }.to_string());
        }
        row.extend(rate.map(|rate| wait.map_or("-".to_string(), |wait| seconds(wait, rate))));
        rows.push(row);
    }
    text += &table(&">".repeat(rows[0].len()), &rows);
    let before = match ahead {
        0 => "no record of the lane before it".to_string(),
        n => format!("{} of the lane before it", count(n, "record")),
    };
    let before = if shared { format!("{before} (of its train, in a shared lane)") } else { before };
    text += &format!("\nWorst wait: in bytes of the line, framing counted, with {before}. Fewer go out until it is handed out.\n");
    if let Some(rate) = rate {
        let most = 1_500 + u64::from(plan.framing);
        text += &format!(
            "In seconds: on a line that never rests while a record waits; a record that is on the line already adds up to {}.\n",
            seconds(most, rate)
        );
    }
    text
}
