//! `zenfrosta setup` and `zenfrosta sheet`: a plan written as a setup's bytes or as a text sheet.

use crate::args::Args;
use crate::fault::Fault;
use crate::files;
use crate::plans;
use crate::script;

pub const HELP: &str = "\
zenfrosta setup [FILE] [EDITS] [--hex] [-o FILE]

Writes the bytes of a setup. FILE is a text sheet, the bytes of a setup, of a settings page or of a session, or a
session's text; standard input if none is named. A sheet gives a plan of format 2 with no framing bytes and no shared
lane.

  --hex            write the bytes as hexadecimal digits, a field on a line
  -o FILE          write to a file

Edits, in any number:
  --new            begin with an empty plan, and read no file
  --format F       1 or 2
  --framing H      the framing bytes of the line, 0 to 64
  --remove LANE    take a lane out
  --lane LANE:WEIGHT:LONGEST[:shared]
                   add a lane, or change it; with ':shared' up to 8 trains share it
";

pub const SHEET_HELP: &str = "\
zenfrosta sheet [FILE] [EDITS] [-o FILE]

Writes a text sheet: a line 'lane weight longest' for each lane. FILE and the edits are those of 'zenfrosta setup'. A
sheet cannot say framing bytes or lanes that are shared.
";

pub fn run(words: &[String]) -> Result<u8, Fault> {
    let args = Args::read("setup", words, plans::EDITS, &["--new", "--hex"])?;
    let plan = plans::edited(&args)?;
    let setup = plan.to_setup().map_err(|refusal| plans::unwritten(&plan, refusal))?;
    if args.flag("--hex") {
        files::write(&args, script::hex(&setup).as_bytes())?;
    } else {
        files::write_raw(&args, &setup)?;
    }
    Ok(0)
}

pub fn sheet(words: &[String]) -> Result<u8, Fault> {
    let args = Args::read("sheet", words, plans::EDITS, &["--new"])?;
    let plan = plans::edited(&args)?;
    let sheet = plan.to_sheet().map_err(|refusal| plans::unwritten(&plan, refusal))?;
    files::write(&args, sheet.as_bytes())?;
    Ok(0)
}
