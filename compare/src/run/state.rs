//! A run in a file: lines of a name and numbers. A later run goes on with it, if it compares the same library by the same cases.

use super::book::{Book, Lines};
use super::kinds::KINDS;
use super::{Part, Run};
use std::path::Path;
use std::time::Duration;

/// The library's sha256 and its size, or that none is linked; and the sum of the sources that the cases are drawn by. The build says both.
pub const LIBRARY: &str = env!("COMPARE_LIBRARY");
pub const SOURCES: &str = env!("COMPARE_SOURCES");

const FIRST: &str = "zenfrosta compare: the state of a run";
const LAST: &str = "end";

/// The lines that are not counts.
const OWN: [&str; 4] = ["seed", "part", "next", "milliseconds"];

pub fn text(run: &Run) -> String {
    let mut lines = Book::written(&mut run.counts.clone());
    let next = run.next.iter().map(|next| i128::from(*next)).collect();
    let part = vec![run.part.at.into(), run.part.of.into()];
    let spent = i128::try_from(run.spent.as_millis()).expect("some years");
    lines.extend(OWN.map(str::to_string).into_iter().zip([vec![run.seed.into()], part, next, vec![spent]]));
    let lines = lines.iter().map(|(name, numbers)| {
        let numbers: Vec<String> = numbers.iter().map(i128::to_string).collect();
        format!("{name} {}\n", numbers.join(" "))
    });
    format!("{FIRST}\nlibrary {LIBRARY}\nsources {SOURCES}\n{}{LAST}\n", lines.collect::<String>())
}

/// The run of such a text; or why it is refused.
pub fn read(text: &str) -> Result<Run, String> {
    let mut lines = text.lines();
    let mut head = |line: &str, else_: &str| match lines.next() {
        Some(found) if found == line => Ok(()),
        _ => Err(else_.to_string()),
    };
    head(FIRST, "it is no state of a run")?;
    head(&format!("library {LIBRARY}"), "it is of another library")?;
    head(&format!("sources {SOURCES}"), "its cases were drawn by another version of the comparison")?;
    let mut numbers = Lines::new();
    // The end is there, once, and nothing behind it.
    let mut ended = false;
    for line in lines {
        if ended || line == LAST {
            ended = line == LAST && !ended;
            continue;
        }
        let (name, rest) = line.split_once(' ').ok_or("a line has no numbers")?;
        let values: Result<Vec<i128>, _> = rest.split_whitespace().map(str::parse).collect();
        numbers.insert(
            name.to_string(),
            values.map_err(|_| format!("'{name}' has something else than numbers"))?,
        );
    }
    if !ended {
        return Err("its end is missing".to_string());
    }
    let mut own = OWN.into_iter().map(|name| {
        let line = numbers.remove(name).ok_or(format!("'{name}' is missing"))?;
        let line: Result<Vec<u64>, _> = line.into_iter().map(u64::try_from).collect();
        line.map_err(|_| format!("'{name}' is wrong"))
    });
    let (Some(seed), Some(part), Some(next), Some(spent)) = (own.next(), own.next(), own.next(), own.next())
    else {
        unreachable!("four lines")
    };
    let ([seed], [at, of], [spent]) = (&seed?[..], &part?[..], &spent?[..]) else {
        return Err("'seed', 'part' or 'milliseconds' is wrong".to_string());
    };
    let part = Part { at: *at, of: *of };
    let next: [u64; KINDS.len()] = next?.try_into().map_err(|_| "'next' is wrong")?;
    if part.at >= part.of || next.iter().any(|next| next % part.of != part.at) {
        return Err("'part' and 'next' do not agree".to_string());
    }
    let mut run = Run { next, spent: Duration::from_millis(*spent), ..Run::new(*seed, part) };
    Book::add(numbers, &mut run.counts)?;
    Ok(run)
}

/// Written beside and then put in its place, so that the file is one state or the other whenever it is broken off.
pub fn save(run: &Run, path: &Path) -> Result<(), String> {
    let mut beside = path.as_os_str().to_owned();
    beside.push(".new");
    let write = std::fs::write(&beside, text(run)).and_then(|()| std::fs::rename(&beside, path));
    write.map_err(|error| format!("{}: {error}", path.display()))
}

pub fn load(path: &Path) -> Result<Run, String> {
    let text = std::fs::read_to_string(path).map_err(|error| format!("{}: {error}", path.display()))?;
    read(&text).map_err(|why| format!("{}: {why}", path.display()))
}

/// The run of this seed and part that the file has, or a new one where there is no file.
pub fn load_or_new(path: &Path, seed: u64, part: Part) -> Result<Run, String> {
    if !path.exists() {
        return Ok(Run::new(seed, part));
    }
    let run = load(path)?;
    if (run.seed, run.part) == (seed, part) {
        return Ok(run);
    }
    let Part { at, of } = run.part;
    Err(format!("{}: it is of seed {} and part {at}/{of}", path.display(), run.seed))
}

/// The counts of several runs as those of one, if they have no case in common.
pub fn joined(runs: &[Run]) -> Result<Run, String> {
    let (first, rest) = runs.split_first().ok_or("no state")?;
    let mut all = first.clone();
    for (at, run) in (1..).zip(rest) {
        let same = |other: &&Run| other.seed == run.seed;
        if runs[..at]
            .iter()
            .filter(same)
            .any(|other| other.part.of != run.part.of || other.part.at == run.part.at)
        {
            return Err(format!("two states of seed {} have cases in common", run.seed));
        }
        Book::add(Book::written(&mut run.counts.clone()), &mut all.counts)?;
        all.spent += run.spent;
    }
    Ok(all)
}
