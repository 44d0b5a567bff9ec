//! `zenfrosta explain`: a refusal's number in words.

use crate::args::Args;
use crate::fault::Fault;
use crate::files;
use crate::text::digits;
use zenfrosta::RefusalKind;

pub const HELP: &str = "\
zenfrosta explain NUMBER | NAME | --all

Says what a refusal's number means and what to mend. NAME is the header's or the wrapper's, as ZF_LANE_FULL.
";

pub fn run(words: &[String]) -> Result<u8, Fault> {
    let args = Args::read("explain", words, &["--output"], &["--all"])?;
    let kinds = if args.flag("--all") {
        RefusalKind::ALL.to_vec()
    } else {
        match args.rest.as_slice() {
            [asked] => vec![find(asked).ok_or_else(|| Fault::Input {
                name: "zenfrosta".to_string(),
                says: format!("no call gives '{asked}' back; 'zenfrosta explain --all' lists every number"),
            })?],
            _ => return Err(args.usage("one number, or --all")),
        }
    };
    let text: String = kinds
        .iter()
        .map(|kind| {
            format!(
                "{:>3}  {}\n     What to mend: {}.\n     ZF_{}\n",
                kind.number(),
                kind.words(),
                kind.mend(),
                kind.name()
            )
        })
        .collect();
    files::write(&args, text.as_bytes())?;
    Ok(0)
}

fn find(asked: &str) -> Option<RefusalKind> {
    let name = asked.to_ascii_uppercase();
    let name = name.strip_prefix("ZF_").unwrap_or(&name);
    let by_name = RefusalKind::ALL.iter().copied().find(|kind| kind.name() == name);
    by_name.or_else(|| digits(asked).and_then(RefusalKind::of))
}
