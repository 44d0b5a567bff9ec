//! `zenfrosta session`: a session's text to bytes and back.

use crate::args::Args;
use crate::fault::Fault;
use crate::files::{self, Input};
use crate::plans::{kind, Kind};
use crate::script;

pub const HELP: &str = "\
zenfrosta session [FILE] [--bytes] [--hex] [-o FILE]

Turns a session's text into its bytes, and bytes, which begin with 01, into a text that gives the same bytes again.
Standard input if no file is named.

  --bytes   the input is bytes, whatever it begins with
  --hex     write the bytes as hexadecimal digits, a field on a line, whichever way the session came
  -o FILE   write to a file

A line of the text is one field; numbers are decimal, or hexadecimal with 0x; '#' begins a comment.

  format F                      1 or 2; format 2 if no line says it
  framing H                     the framing bytes of the line
  lane LANE WEIGHT [LONGEST]    a lane; without a longest it is 1,500 in format 1, 576 in format 2
  shared LANE                   right behind its lane: trains share it
  put LANE [TRAIN] MARK LENGTH  the requests; the setup ends before the first of them
  take, look, sets, lag LANE, restart
  end                           the end field; it is written at the end of the text if no line says it

And for sessions that are wrong on purpose:
  requests                      the setup's end field, where no request follows
  bytes HEX ..                  any bytes
  cut                           the text ends here, and no end field is written
";

pub fn run(words: &[String]) -> Result<u8, Fault> {
    let args = Args::read("session", words, &["--output"], &["--bytes", "--hex"])?;
    let input = Input::read(args.file()?)?;
    let is_bytes = args.flag("--bytes") || matches!(kind(&input.bytes), Kind::Bytes);
    if is_bytes && !args.flag("--hex") {
        files::write(&args, script::write(&input.bytes).as_bytes())?;
        return Ok(0);
    }
    let session = if is_bytes { input.bytes } else { script::read(&input)?.bytes };
    if args.flag("--hex") {
        files::write(&args, script::hex(&session).as_bytes())?;
    } else {
        files::write_raw(&args, &session)?;
    }
    Ok(0)
}
