//! `zenfrosta run`: a session's requests and answers side by side.

use crate::args::Args;
use crate::fault::Fault;
use crate::fields::setup_of;
use crate::figures::LINE_RATE;
use crate::files;
use crate::script;
use crate::sessions::Session;
use crate::text::{count, signed, table, thousands};
use zenfrosta::refusals::INPUT_LONG;
use zenfrosta::{answer_area, Plan, Refusal, RefusalKind, Stop, MOST_REQUESTS, TABLE_SIZE};

pub const HELP: &str = "\
zenfrosta run [FILE] [--limit N] [--plain] [--table FILE] [-o FILE]

Runs a session, as text or as bytes, and shows each request with its answer and what the answer says. Standard input if
no file is named.

  --limit N      stop after so many requests, 0 to 1,000 (1,000)
  --plain        the answer lines alone, as the unit's program prints them
  --table FILE   write the table that the session leaves
  -o FILE        write to a file

The exit status is 0 at the end field or the limit, 1 at a field that is refused. A request that is answered by 'no'
refuses nothing but itself.
";

/// The most bytes that the unit's program reads.
const PROGRAM_MOST: usize = 32_768;

pub fn run(words: &[String]) -> Result<u8, Fault> {
    let args = Args::read("run", words, &["--limit", "--table", "--output"], &["--plain"])?;
    let limit = args.number("--limit", 0, MOST_REQUESTS)?.unwrap_or(MOST_REQUESTS);
    let session = Session::read(args.file()?)?;
    // The unit's program looks at no more, and says so.
    if session.bytes().len() > PROGRAM_MOST {
        return Err(session.fault(Refusal { number: INPUT_LONG, place: None }));
    }
    let mut lent = vec![0; TABLE_SIZE];
    let mut answers = vec![0; answer_area(limit)];
    let run = zenfrosta::run(session.bytes(), limit, &mut lent, &mut answers);
    let lines: String = answers[..run.written].iter().copied().map(char::from).collect();
    let text = if args.flag("--plain") {
        lines
    } else {
        beside(session.bytes(), run.answered as usize, &lines, run.stop)
    };
    files::write(&args, text.as_bytes())?;
    if let Some(path) = args.value("--table") {
        std::fs::write(path, &lent).map_err(|error| Fault::File { name: path.to_string(), error })?;
    }
    match run.stop {
        Stop::Refused(refusal) => Err(session.fault(refusal)),
        Stop::End | Stop::Limit => Ok(0),
    }
}

/// The requests with their answers, and how the run ended.
fn beside(session: &[u8], answered: usize, lines: &str, stop: Stop) -> String {
    let plan = Plan::from_setup(setup_of(session)).ok();
    let shared = |lane: &str| {
        let lane = lane.parse().ok().and_then(|lane: usize| *plan.as_ref()?.lanes.get(lane)?);
        lane.is_some_and(|lane| lane.shared)
    };
    let mut lines = lines.lines();
    let mut rows = vec![["", "request", "answer", ""].map(String::from).to_vec()];
    rows.push(vec![
        String::new(),
        "setup".to_string(),
        lines.next().unwrap_or_default().to_string(),
        String::new(),
    ]);
    for (i, ((_, request), answer)) in
        script::requests(session).into_iter().zip(&mut lines).take(answered).enumerate()
    {
        let says = in_words(&request, answer, shared);
        rows.push(vec![(i + 1).to_string(), request, answer.to_string(), says]);
    }
    let mut text = table("><<<", &rows);
    let requests = count(answered as u64, "request");
    text += &match stop {
        Stop::End => format!("\n{requests} answered, up to the end field\n"),
        Stop::Limit => format!("\n{requests} answered, up to the limit\n"),
        Stop::Refused(refusal) => format!("\n{requests} answered, then {refusal}\n"),
    };
    text
}

/// What an answer says.
fn in_words(request: &str, answer: &str, shared: impl Fn(&str) -> bool) -> String {
    let asked: Vec<&str> = request.split(' ').collect();
    let told: Vec<&str> = answer.split(' ').collect();
    match told.as_slice() {
        ["no", number, ..] => number
            .parse()
            .ok()
            .and_then(RefusalKind::of)
            .map_or(String::new(), |kind| kind.words().to_string()),
        ["put", "ok", ahead] => {
            let lane = asked[1];
            // In a shared lane those of its train are counted; a put without a train is train 0's.
            let train = if asked.len() == 5 { asked[2] } else { "0" };
            match (*ahead, shared(lane)) {
                ("0", true) => format!("the next of train {train} in lane {lane}"),
                ("0", false) => format!("the next of lane {lane}"),
                (ahead, true) => format!("{ahead} before it of train {train} in lane {lane}"),
                (ahead, false) => format!("{ahead} before it in lane {lane}"),
            }
        }
        [what @ ("take" | "look"), lane, mark, length, train @ ..] => {
            let sends = if *what == "take" { "sends" } else { "would send" };
            let of = train.first().map_or(String::new(), |train| format!(" of train {train}"));
            format!("lane {lane} {sends} record {mark}{of}, {length} bytes")
        }
        ["lag", lag] => lag.parse().map_or(String::new(), lagging),
        ["sets", words @ ..] => sets(words),
        ["restart", ..] => "a fresh table of the same setup".to_string(),
        _ => String::new(),
    }
}

/// A lag by the clock's bytes of the line.
fn lagging(lag: i64) -> String {
    let units = lag.unsigned_abs();
    let exact = units % LINE_RATE == 0;
    let bytes =
        format!("{}{} bytes of the line", if exact { "" } else { "about " }, thousands(units / LINE_RATE));
    match lag {
        0 => "the clock stands at the lane's start".to_string(),
        1.. => format!("the clock is past the lane's start by {bytes}"),
        _ => format!("the lane's start is ahead of the clock by {bytes} ({})", signed(lag)),
    }
}

/// The groups in each set.
fn sets(words: &[&str]) -> String {
    let names = ["eligible ready", "ineligible ready", "eligible blocked", "ineligible blocked"];
    let mut said = Vec::new();
    for (name, word) in names.iter().zip(words) {
        let word: u64 = word.parse().unwrap_or(0);
        let groups: Vec<String> = (0..64).filter(|i| word >> i & 1 == 1).map(|i| i.to_string()).collect();
        if !groups.is_empty() {
            said.push(format!(
                "{name}: {} {}",
                if groups.len() == 1 { "group" } else { "groups" },
                groups.join(" ")
            ));
        }
    }
    if said.is_empty() {
        "no group holds records".to_string()
    } else {
        said.join("; ")
    }
}
