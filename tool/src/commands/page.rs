//! `zenfrosta page`: a settings page written from a plan, shown, or offered to a table that was kept.

use super::plan;
use crate::args::Args;
use crate::fault::Fault;
use crate::files::{self, Input};
use crate::plans;
use crate::script;
use crate::text::count;
use crate::{pages, text, unfit};
use zenfrosta::{edition, Editions, Offered, TABLE_SIZE};

pub const HELP: &str = "\
zenfrosta page [FILE] [-o FILE]
zenfrosta page [FILE] --edition N [EDITS] [--hex] [-o FILE]
zenfrosta page [FILE] --table TABLE [-o FILE]

A settings page carries a plan with an edition to a unit in the field. Without an option FILE is a page, and what it
says is shown. Standard input if no file is named.

  --edition N      write the page of a plan: FILE and the edits are those of 'zenfrosta setup', and FILE may be a page
                   too, whose plan then goes on with the new edition; N is 0 to 65,535
  --hex            write the page as hexadecimal digits
  --table TABLE    offer the page to a table that was kept, and say whether it is in force, waits or is refused; the
                   file stays
  -o FILE          write to a file; with --table, the table as the offer leaves it
";

/// The options that edit a plan, and those of a page.
const OPTIONS: &[&str] = &["--format", "--framing", "--lane", "--remove", "--edition", "--table", "--output"];

pub fn run(words: &[String]) -> Result<u8, Fault> {
    let args = Args::read("page", words, OPTIONS, &["--new", "--hex"])?;
    match (args.number("--edition", 0, 65_535)?, args.value("--table")) {
        (Some(_), Some(_)) => Err(args.usage("--edition writes a page and --table offers one: not both")),
        (Some(number), None) => write(&args, number as u16),
        (None, Some(path)) => offered(&args, path),
        (None, None) => {
            let page = pages::read(&Input::read(args.file()?)?)?;
            files::write(&args, shown(&page).as_bytes())?;
            Ok(0)
        }
    }
}

fn write(args: &Args, number: u16) -> Result<u8, Fault> {
    let plan = plans::edited(args)?;
    let page = plan.to_page(number).map_err(|refusal| plans::unwritten(&plan, refusal))?;
    if args.flag("--hex") {
        files::write(args, script::page_hex(&page).as_bytes())?;
    } else {
        files::write_raw(args, &page)?;
    }
    Ok(0)
}

fn shown(page: &pages::Page) -> String {
    let mut text = format!("a settings page of edition {}\n", page.edition);
    if page.edition == 0 {
        text += "edition 0 is above none: every unit refuses it with 60\n";
    }
    for (tag, length) in &page.skipped {
        text += &format!("field {tag:02X} of {}, which units of today skip\n", count(*length as u64, "byte"));
    }
    text + &plan::shown(&page.plan, None, 0)
}

fn offered(args: &Args, path: &str) -> Result<u8, Fault> {
    let page = Input::read(args.file()?)?;
    let mut table = Input::read(path)?;
    if table.bytes.len() < TABLE_SIZE {
        let (bytes, size) = (count(table.bytes.len() as u64, "byte"), text::thousands(TABLE_SIZE as u64));
        return Err(table.fault(format!("{bytes}, and a table has {size}")));
    }
    // 10 is the table's own fault, and everything else the page's.
    edition(&table.bytes).map_err(|refusal| unfit::fault(&table, refusal))?;
    let done =
        zenfrosta::offer(&mut table.bytes, &page.bytes).map_err(|refusal| plans::at_byte(&page, refusal))?;
    let known = edition(&table.bytes).map_err(|refusal| table.fault(plans::words(refusal)))?;
    if let Some(to) = args.value("--output") {
        std::fs::write(to, &table.bytes).map_err(|error| Fault::File { name: to.to_string(), error })?;
    }
    let says = match done {
        Offered::InForce => "in force",
        Offered::Waits => "waits until no record is held",
    };
    println!("{says}; {}", editions(known));
    Ok(0)
}

/// The editions of a table, in words.
pub fn editions(known: Editions) -> String {
    match known.waiting {
        Some(waiting) => format!("last edition {}, edition {waiting} waits", known.last),
        None => format!("last edition {}", known.last),
    }
}
