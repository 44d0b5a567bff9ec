//! `zenfrosta board`: a journal's handover records entered on the desk's board.

use crate::args::Args;
use crate::desk::Desk;
use crate::fault::Fault;
use crate::files::{self, Input};
use crate::journal::Journal;
use crate::page;

pub const HELP: &str = "\
zenfrosta board [FILE] [-o FILE]
zenfrosta board [FILE] --serve [--address ADDRESS:PORT]

Enters the handover records of a journal on the desk's board, and shows the board: which train is in which cell.
Standard input if no file is named. What is refused is told with its place in the journal; the board stays as it was.

  --serve        serve the board as a page for a browser, and follow the file, or standard input, as it grows
  --address      where to: a local address and a port (127.0.0.1:7064); port 0 takes any that is free
  -o FILE        write to a file

A journal is fields of 14 bytes, one behind the other (docs/DESK.md), or lines of text; '#' begins a comment:

  join TRAIN CELL SEQUENCE
  leave TRAIN CELL SEQUENCE
  clear TRAIN

The exit status is 1 if anything was refused.
";

pub fn run(words: &[String]) -> Result<u8, Fault> {
    let args = Args::read("board", words, &["--address", "--output"], &["--serve"])?;
    if args.flag("--serve") {
        return page::serve(&args);
    }
    if args.value("--address").is_some() {
        return Err(args.usage("--address goes with --serve"));
    }
    let input = Input::read(args.file()?)?;
    let mut journal = Journal::default();
    let mut desk = Desk::new();
    for entry in journal.feed(&input.bytes).into_iter().chain(journal.finish()) {
        if let Err(says) = desk.enter(entry) {
            eprintln!("{}:{}{says}", input.name, if says.starts_with("byte") { " " } else { "" });
        }
    }
    files::write(&args, desk.text().as_bytes())?;
    Ok(u8::from(desk.refused > 0))
}
