//! Numbers by name, as a state keeps them. A tally goes through its numbers once, naming each; the same walk writes them down, or adds those of another run to
//! them.

use crate::laws::ratio::Ratio;
use crate::laws::waits::{ByLane, Near};
use std::collections::BTreeMap;

/// A tally that goes through its numbers.
pub trait Kept {
    fn numbers(&mut self, book: &mut Book);
}

/// Has a tally go through its numbers, each of which is one of the kinds of [`Book`]; one that is left out does not compile.
macro_rules! kept {
    ($tally:ty { $($kind:ident: $($name:ident),*;)* }) => {
        impl $crate::run::book::Kept for $tally {
            fn numbers(&mut self, book: &mut $crate::run::book::Book) {
                let Self { $($($name,)*)* } = self;
                $($(book.$kind(stringify!($name), $name);)*)*
            }
        }
    };
}
pub(crate) use kept;

/// Lines of a name and numbers.
pub type Lines = BTreeMap<String, Vec<i128>>;

pub struct Book {
    lines: Lines,
    /// Whether the numbers of the lines are added to the tally's; else the tally's are written down.
    adds: bool,
    /// What comes before each name.
    under: String,
    wrong: Vec<String>,
}

impl Book {
    /// The numbers of a tally, each name with its own before it.
    pub fn written(tally: &mut impl Kept) -> Lines {
        let mut book = Book { lines: Lines::new(), adds: false, under: String::new(), wrong: vec![] };
        tally.numbers(&mut book);
        book.lines
    }

    /// Adds such numbers to a tally; what is wrong, if a name is missing, unknown or has other numbers than it should.
    pub fn add(lines: Lines, tally: &mut impl Kept) -> Result<(), String> {
        let mut book = Book { lines, adds: true, under: String::new(), wrong: vec![] };
        tally.numbers(&mut book);
        book.wrong.extend(book.lines.into_keys());
        match book.wrong.first() {
            None => Ok(()),
            Some(name) => Err(format!("'{name}' is missing, unknown or wrong")),
        }
    }

    /// The numbers of a part, under its name.
    pub fn of(&mut self, name: &str, part: &mut impl Kept) {
        let above = self.under.clone();
        self.under = format!("{above}{name}.");
        part.numbers(self);
        self.under = above;
    }

    /// Writes the numbers down, or gives those that are to be added.
    fn line(&mut self, name: &str, own: Vec<i128>) -> Option<Vec<i128>> {
        let name = format!("{}{name}", self.under);
        if !self.adds {
            self.lines.insert(name, own);
            return None;
        }
        let found = self.lines.remove(&name);
        if found.is_none() {
            self.wrong.push(name);
        }
        found
    }

    fn wrong(&mut self, name: &str) {
        self.wrong.push(format!("{}{name}", self.under));
    }

    /// A count.
    pub fn sum(&mut self, name: &str, count: &mut u64) {
        self.sums(name, std::slice::from_mut(count));
    }

    pub fn sums(&mut self, name: &str, counts: &mut [u64]) {
        let Some(more) = self.line(name, counts.iter().map(|count| i128::from(*count)).collect()) else {
            return;
        };
        let more: Vec<u64> = more.into_iter().filter_map(|more| more.try_into().ok()).collect();
        if more.len() != counts.len() {
            return self.wrong(name);
        }
        counts.iter_mut().zip(more).for_each(|(count, more)| *count += more);
    }

    /// Counts that are as many as were needed so far.
    pub fn growing(&mut self, name: &str, counts: &mut Vec<u64>) {
        let own = counts.iter().map(|count| i128::from(*count)).collect();
        let Some(more) = self.line(name, own) else { return };
        counts.resize(counts.len().max(more.len()), 0);
        for (count, more) in counts.iter_mut().zip(more) {
            match u64::try_from(more) {
                Ok(more) => *count += more,
                Err(_) => return self.wrong(name),
            }
        }
    }

    /// The greatest of a kind.
    pub fn most(&mut self, name: &str, most: &mut [u64]) {
        let Some(other) = self.line(name, most.iter().map(|most| i128::from(*most)).collect()) else {
            return;
        };
        let other: Vec<u64> = other.into_iter().filter_map(|other| other.try_into().ok()).collect();
        if other.len() != most.len() {
            return self.wrong(name);
        }
        most.iter_mut().zip(other).for_each(|(most, other)| *most = other.max(*most));
    }

    /// Counts by number.
    pub fn by_number(&mut self, name: &str, counts: &mut BTreeMap<u64, u64>) {
        let own = counts.iter().flat_map(|(number, count)| [i128::from(*number), i128::from(*count)]);
        let Some(more) = self.line(name, own.collect()) else { return };
        for pair in more.chunks(2) {
            match pair.iter().map(|number| u64::try_from(*number)).collect::<Result<Vec<u64>, _>>().as_deref()
            {
                Ok([number, count]) => *counts.entry(*number).or_default() += count,
                _ => return self.wrong(name),
            }
        }
    }

    /// The nearest to a bound.
    pub fn ratio(&mut self, name: &str, ratio: &mut Ratio) {
        match self.line(name, vec![ratio.used, ratio.bound]).as_deref() {
            None => {}
            Some([used, bound]) if *bound > 0 => *ratio = ratio.or(Ratio { used: *used, bound: *bound }),
            Some(_) => self.wrong(name),
        }
    }

    pub fn near(&mut self, name: &str, near: &mut Near) {
        match self.line(name, of_near(near)).map(|line| near_of(&line)) {
            None => {}
            Some(Some(other)) => *near = near.or(other),
            Some(None) => self.wrong(name),
        }
    }

    pub fn by_lane(&mut self, name: &str, nears: &mut ByLane) {
        let Some(more) = self.line(name, nears.values().flat_map(of_near).collect()) else { return };
        for line in more.chunks(NEAR) {
            let Some(near) = near_of(line) else { return self.wrong(name) };
            let best = nears.entry((near.weight, near.longest, near.ahead)).or_insert(near);
            *best = best.or(near);
        }
    }
}

/// The numbers of a wait and its bound.
const NEAR: usize = 8;

fn of_near(near: &Near) -> Vec<i128> {
    let Near { part, weight, longest, framing, ahead, sent, bound } = *near;
    let setup = [weight.into(), longest.into(), framing.into(), ahead.into()];
    [&[part.used, part.bound][..], &setup, &[sent.into(), bound.into()]].concat()
}

fn near_of(line: &[i128]) -> Option<Near> {
    let &[used, of, weight, longest, framing, ahead, sent, bound] = line else { return None };
    Some(Near {
        part: (of > 0).then_some(Ratio { used, bound: of })?,
        weight: weight.try_into().ok()?,
        longest: longest.try_into().ok()?,
        framing: framing.try_into().ok()?,
        ahead: ahead.try_into().ok()?,
        sent: sent.try_into().ok()?,
        bound: bound.try_into().ok()?,
    })
}
