//! `zenfrosta table`: a table that was kept, shown by the library's own calls that show one. The order in which records go out is that of takes on a
//! copy. Only where the library refuses a table is its layout read, to say why.

use super::page::editions;
use crate::args::Args;
use crate::fault::Fault;
use crate::files::{self, Input};
use crate::text::{count, signed, table, thousands};
use crate::unfit;
use zenfrosta::refusals::{NOTHING_HELD, NOT_GOOD, NO_LANE};
use zenfrosta::{Editions, LaneSetting, Record, Refusal, OLD_TABLE_SIZE, TABLE_SIZE};

pub const HELP: &str = "\
zenfrosta table [FILE] [--order] [--converted FILE] [-o FILE]

Shows a table that was kept: its lanes with what waits in each, and what goes out next. Of one that the library refuses
it says why: the first thing in it that cannot be, and at which byte. Standard input if no file is named. 'zenfrosta run
--table FILE' writes a table. One from before lanes had room for 64 records, which is shorter, is converted first.

  --order            also the order in which takes would hand the records out, if nothing else is put
  --converted FILE   write the table that a shorter one was converted to
  -o FILE            write to a file

  lag       the clock less the lane's start; below 0 the lane was served ahead
  waiting   mark/length of each record, first one first; in a shared lane train by train, those that hold records
";

pub fn run(words: &[String]) -> Result<u8, Fault> {
    let args = Args::read("table", words, &["--converted", "--output"], &["--order"])?;
    let mut input = Input::read(args.file()?)?;
    let before = input.bytes.len();
    let old = (OLD_TABLE_SIZE..TABLE_SIZE).contains(&before);
    if old {
        let mut table = vec![0; TABLE_SIZE];
        zenfrosta::convert(&input.bytes, &mut table).map_err(|refusal| {
            input.fault(format!(
                "{}, as of a table of 16 places: {}",
                count(before as u64, "byte"),
                unfit::words(&input, refusal)
            ))
        })?;
        input.bytes = table;
    }
    if let Some(path) = args.value("--converted") {
        if !old {
            return Err(input.fault(format!("{}: no table to be converted", count(before as u64, "byte"))));
        }
        std::fs::write(path, &input.bytes).map_err(|error| Fault::File { name: path.to_string(), error })?;
    }
    if input.bytes.len() < TABLE_SIZE {
        let says = format!(
            "{}, and a table has {}: too short, so every call is refused with {NOT_GOOD}",
            count(input.bytes.len() as u64, "byte"),
            thousands(TABLE_SIZE as u64)
        );
        return Err(input.fault(says));
    }
    let shown = Shown::of(&input.bytes).map_err(|refusal| unfit::fault(&input, refusal))?;
    let mut text = shown.text(args.flag("--order"));
    if old {
        text = format!(
            "converted from a table of {} with 16 places in a lane\n{text}",
            count(before as u64, "byte")
        );
    }
    files::write(&args, text.as_bytes())?;
    Ok(0)
}

struct Lane {
    number: u8,
    setting: LaneSetting,
    lag: i64,
    /// First record first; in a shared lane train by train.
    waiting: Vec<Record>,
}

/// What waits in a lane: the queue of its one train, or of each train that shares it.
fn waiting(bytes: &[u8], number: u8, shared: bool) -> Result<Vec<Record>, Refusal> {
    let mut records = Vec::new();
    for train in 0..if shared { 8 } else { 1 } {
        for before in 0.. {
            match zenfrosta::waiting_of(bytes, number, train, before) {
                Err(refusal) if refusal.number == NOTHING_HELD => break,
                record => records.push(record?),
            }
        }
    }
    Ok(records)
}

struct Shown {
    size: usize,
    clock: u64,
    editions: Editions,
    lanes: Vec<Lane>,
    /// The records in the order in which takes hand them out.
    order: Vec<Record>,
}

impl Shown {
    fn of(bytes: &[u8]) -> Result<Shown, Refusal> {
        let clock = zenfrosta::clock(bytes)?;
        let editions = zenfrosta::edition(bytes)?;
        let mut lanes = Vec::new();
        for number in 0..64 {
            match zenfrosta::lane(bytes, number) {
                Err(refusal) if refusal.number == NO_LANE => {}
                Err(refusal) => return Err(refusal),
                Ok(setting) => lanes.push(Lane {
                    number,
                    setting,
                    lag: zenfrosta::lag(bytes, number)?,
                    waiting: waiting(bytes, number, setting.shared)?,
                }),
            }
        }
        // 16 ends the takes; a table of other origin may be refused with 10 before.
        let mut copy = bytes.to_vec();
        let order = std::iter::from_fn(|| zenfrosta::take(&mut copy).ok()).collect();
        Ok(Shown { size: bytes.len(), clock, editions, lanes, order })
    }

    /// Whether a record waits in a shared lane.
    fn shared(&self, record: &Record) -> bool {
        self.lanes.iter().any(|lane| lane.number == record.lane && lane.setting.shared)
    }

    fn of_train(&self, record: &Record) -> String {
        if self.shared(record) {
            format!(" of train {}", record.train)
        } else {
            String::new()
        }
    }

    fn text(&self, with_order: bool) -> String {
        let framing = self.lanes.first().map_or(0, |lane| lane.setting.framing);
        let held: Vec<&Record> = self.lanes.iter().flat_map(|lane| &lane.waiting).collect();
        let mut text = format!(
            "{}: a good table of {}, {}\n{} held, {}; the clock is at {}\n",
            count(self.size as u64, "byte"),
            count(self.lanes.len() as u64, "lane"),
            count(framing, "framing byte"),
            count(held.len() as u64, "record"),
            count(held.iter().map(|record| record.length).sum(), "byte"),
            thousands(self.clock)
        );
        if self.editions != (Editions { last: 0, waiting: None }) {
            text += &format!("settings pages: {}\n", editions(self.editions));
        }
        if let Some(next) = self.order.first() {
            text += &format!(
                "next out: lane {}, record {}{}, {}\n",
                next.lane,
                next.mark,
                self.of_train(next),
                count(next.length, "byte")
            );
        }
        let head = ["lane", "weight", "longest", "c", "group", "lag", "held", "bytes", "waiting"]
            .map(String::from)
            .to_vec();
        let mut rows = vec![head];
        for lane in &self.lanes {
            let (setting, held) = (lane.setting, &lane.waiting);
            let mut waiting: Vec<String> = Vec::new();
            let mut train = None;
            for record in held.iter().take(8) {
                if setting.shared && train != Some(record.train) {
                    waiting.push(format!("train {}:", record.train));
                    train = Some(record.train);
                }
                waiting.push(format!("{}/{}", record.mark, record.length));
            }
            if held.len() > 8 {
                waiting.push(format!("and {} more", held.len() - 8));
            }
            if setting.shared && held.is_empty() {
                waiting.push("(shared)".to_string());
            }
            rows.push(vec![
                lane.number.to_string(),
                thousands(setting.weight),
                thousands(setting.longest),
                thousands(1_048_576u64.div_ceil(setting.weight)),
                setting.group.to_string(),
                signed(lane.lag),
                held.len().to_string(),
                thousands(held.iter().map(|record| record.length).sum()),
                waiting.join(" "),
            ]);
        }
        text += &format!("\n{}", table(">>>>>>>><", &rows));
        if with_order && !self.order.is_empty() {
            let shared = self.lanes.iter().any(|lane| lane.setting.shared);
            let mut rows = vec![["out", "lane", "mark", "length"].map(String::from).to_vec()];
            if shared {
                rows[0].push("train".to_string());
            }
            for (i, record) in self.order.iter().enumerate() {
                let mut row = vec![
                    (i + 1).to_string(),
                    record.lane.to_string(),
                    record.mark.to_string(),
                    thousands(record.length),
                ];
                if self.shared(record) {
                    row.push(record.train.to_string());
                }
                rows.push(row);
            }
            text += &format!("\n{}", table(if shared { ">>>>>" } else { ">>>>" }, &rows));
        }
        text
    }
}
