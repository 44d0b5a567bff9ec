//! `zenfrosta picture`: a session as a picture.

use crate::args::Args;
use crate::fault::Fault;
use crate::files;
use crate::picture;
use crate::sessions::Session;
use crate::trace::Trace;

pub const HELP: &str = "\
zenfrosta picture [FILE] [--width PIXELS] [--title TEXT] [-o FILE]

Draws a session, as text or as bytes, as an SVG picture: for each lane what waits in it, what it sends and when, in a
shared lane with a colour for each train, and its lag, all over the clock; above them what waits in all lanes. Standard
input if no file is named.

  --width PIXELS   the picture's width, 600 to 8,000 (1,200)
  --title TEXT     its title; the file's name if none is given
  -o FILE          write to a file

The clock is shown in bytes of the line: V / 1,024. Where it jumps far, because nothing may be sent yet, the axis is
broken and the jump is written there. A lag above 0 says that the clock is past the lane's start; it is shown in slots
of its lane. A session that is refused at a field is drawn up to there, and the exit status is 1.
";

/// The most steps that are drawn: more would be too small to see.
const MOST: usize = 20_000;

pub fn run(words: &[String]) -> Result<u8, Fault> {
    let args = Args::read("picture", words, &["--width", "--title", "--output"], &[])?;
    let width = args.number("--width", 600, 8_000)?.unwrap_or(1_200);
    let session = Session::read(args.file()?)?;
    let (trace, refused) = Trace::of(session.bytes()).map_err(|refusal| session.fault(refusal))?;
    if trace.steps.len() > MOST {
        return Err(Fault::Input {
            name: session.name().to_string(),
            says: format!(
                "{} requests that change something, and {MOST} is the most that is drawn",
                trace.steps.len()
            ),
        });
    }
    let title = args.value("--title").unwrap_or(session.name());
    files::write(&args, picture::svg(&trace, title, width as f64).as_bytes())?;
    refused.map_or(Ok(0), |refusal| Err(session.fault(refusal)))
}
