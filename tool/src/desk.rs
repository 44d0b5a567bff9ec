//! The board as the desk sees it: the library's board, when each line was last heard of, and what was refused.

use crate::journal::{Entry, What};
use crate::text::{count, table, thousands};
use std::collections::VecDeque;
use std::time::SystemTime;
use zenfrosta::{Board, BoardRefusal, Kind, RefusalKind};

/// The refusals that are kept to be shown.
const KEPT: usize = 50;

pub struct Desk {
    board: Board,
    /// When the record on each line came.
    heard: [Option<SystemTime>; 64],
    pub accepted: u64,
    pub refused: u64,
    /// The last refusals, newest first: when, and what is said of it.
    pub refusals: VecDeque<(SystemTime, String)>,
}

impl Desk {
    pub fn new() -> Desk {
        Desk { board: Board::new(), heard: [None; 64], accepted: 0, refused: 0, refusals: VecDeque::new() }
    }

    /// Enters what the journal says; what is refused is told, with its place in the journal.
    pub fn enter(&mut self, entry: Entry) -> Result<(), String> {
        let now = SystemTime::now();
        let done = match entry.what {
            Err(says) => Err(says),
            Ok(What::Record(field)) => match self.board.record(&field) {
                Ok(line) => {
                    self.heard[usize::from(line)] = Some(now);
                    Ok(())
                }
                Err(refusal) => Err(format!("{}{}", subject(&field), words(refusal))),
            },
            Ok(What::Clear(train)) => match self.board.clear(train) {
                Ok(line) => {
                    self.heard[usize::from(line)] = None;
                    Ok(())
                }
                Err(refusal) => Err(format!("clear of train {train}: {}", words(refusal))),
            },
        };
        match done {
            Ok(()) => {
                self.accepted += 1;
                Ok(())
            }
            Err(says) => {
                let says = format!("{}: {says}", entry.place);
                self.refused += 1;
                self.refusals.push_front((now, format!("journal {says}")));
                self.refusals.truncate(KEPT);
                Err(says)
            }
        }
    }

    /// The board as text.
    pub fn text(&self) -> String {
        let mut rows = vec![["line", "train", "", "cell", "record"].map(String::from).to_vec()];
        for (line, record) in self.board.lines() {
            rows.push(vec![
                line.to_string(),
                record.train.to_string(),
                kind(record.kind).to_string(),
                record.cell.to_string(),
                record.sequence.to_string(),
            ]);
        }
        let free = 65 - rows.len() as u64;
        let lines = if rows.len() > 1 { table(">><>>", &rows) } else { String::new() };
        format!(
            "{lines}{} free, {} entered, {} refused\n",
            count(free, "line"),
            thousands(self.accepted),
            thousands(self.refused)
        )
    }

    /// The board for the page, in JSON.
    pub fn json(&self, source: &str, state: &str) -> String {
        let lines: Vec<String> = self
            .board
            .lines()
            .map(|(line, record)| {
                format!(
                    "{{\"line\":{line},\"train\":{},\"cell\":{},\"kind\":\"{}\",\"sequence\":{},\"heard\":{}}}",
                    record.train,
                    record.cell,
                    kind(record.kind),
                    record.sequence,
                    self.heard[usize::from(line)].map_or_else(|| "null".to_string(), millis)
                )
            })
            .collect();
        let refusals: Vec<String> = self
            .refusals
            .iter()
            .map(|(at, says)| format!("{{\"at\":{},\"says\":{}}}", millis(*at), quoted(says)))
            .collect();
        format!(
            "{{\"source\":{},\"state\":{},\"entered\":{},\"refused\":{},\"now\":{},\"lines\":[{}],\"refusals\":[{}]}}",
            quoted(source),
            quoted(state),
            self.accepted,
            self.refused,
            millis(SystemTime::now()),
            lines.join(","),
            refusals.join(",")
        )
    }
}

fn kind(kind: Kind) -> &'static str {
    match kind {
        Kind::Joined => "joined",
        Kind::Left => "left",
    }
}

/// Whose record it is, where the field has a train.
fn subject(field: &[u8]) -> String {
    match field {
        [0x30, 0, 11, a, b, c, d, ..] if field.len() >= 14 => {
            format!("train {}: ", u32::from_be_bytes([*a, *b, *c, *d]))
        }
        _ => String::new(),
    }
}

fn words(refusal: BoardRefusal) -> String {
    let mend = RefusalKind::of(refusal.number()).map_or("", RefusalKind::mend);
    format!("{refusal} ({mend})")
}

fn millis(at: SystemTime) -> String {
    at.duration_since(SystemTime::UNIX_EPOCH).map_or(0, |since| since.as_millis()).to_string()
}

/// A string of JSON; '<' too is written by its number, so that it can stand in a page.
fn quoted(words: &str) -> String {
    let mut said = String::from("\"");
    for letter in words.chars() {
        match letter {
            '"' | '\\' => said.extend(['\\', letter]),
            letter if letter < ' ' || letter == '<' || letter == '\u{7F}' => {
                said += &format!("\\u{:04x}", u32::from(letter))
            }
            letter => said.push(letter),
        }
    }
    said.push('"');
    said
}
