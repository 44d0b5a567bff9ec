//! The cases of the journal's comparison: each drawn from the seed and its own number alone.

use super::bytes::{read, Reference, SIZE};
use super::rules::{Journal, Record, JOINED, LINES};
use super::{draw, Desk, Refused, Shown};
use crate::driver::cases;
use crate::driver::lent::Lent;
use crate::driver::report::{hex, Found};
use crate::rng::Rng;
use crate::run::book::kept;
use std::collections::BTreeMap;
use std::fmt;

/// Counts of a comparison.
#[derive(Clone, Debug, Default, PartialEq, Eq)]
pub struct Tally {
    pub cases: u64,
    pub calls: u64,
    /// Fields given to be entered, and how many were.
    pub fields: u64,
    pub records: u64,
    pub cleared: u64,
    /// By number.
    pub refused: BTreeMap<u64, u64>,
    /// Boards that no call made, and how many of them were boards.
    pub boards: u64,
    pub boards_good: u64,
    /// Pairs of records that were tried in both orders.
    pub orders: u64,
}

kept!(Tally {
    sum: cases, calls, records, fields, cleared, boards, boards_good, orders;
    by_number: refused;
});

impl fmt::Display for Tally {
    fn fmt(&self, f: &mut fmt::Formatter) -> fmt::Result {
        write!(f, "the board: {} cases, {} calls compared: ", self.cases, self.calls)?;
        write!(f, "{} records entered of {}, {} trains cleared", self.records, self.fields, self.cleared)?;
        let refused: Vec<String> = self.refused.iter().map(|(number, n)| format!("{number}: {n}")).collect();
        write!(f, "\n  calls refused by {}", refused.join(", "))?;
        write!(f, "\n  boards that no call made: {}, {} of them good; ", self.boards, self.boards_good)?;
        write!(f, "{} pairs of records in both orders", self.orders)
    }
}

/// A call, as it is shown.
#[derive(Clone, Debug)]
enum Call {
    Begin,
    Record(Vec<u8>),
    Clear(u32),
    Line(u8),
}

impl fmt::Display for Call {
    fn fmt(&self, f: &mut fmt::Formatter) -> fmt::Result {
        match self {
            Call::Begin => write!(f, "begin"),
            Call::Record(field) => write!(f, "record {}", hex(field)),
            Call::Clear(train) => write!(f, "clear {train}"),
            Call::Line(line) => write!(f, "line {line}"),
        }
    }
}

/// What a call answers: the line that it changed, or what stands on a line.
type Answer = Result<(u64, Option<Shown>), Refused>;

fn ask<D: Desk>(desk: &mut D, board: &mut [u8], call: &Call) -> Answer {
    match call {
        Call::Begin => desk.begin(board).map(|()| (0, None)),
        Call::Record(field) => desk.record(board, field).map(|line| (line, None)),
        Call::Clear(train) => desk.clear(board, *train).map(|line| (line, None)),
        Call::Line(line) => desk.line(board, *line).map(|shown| (0, shown)),
    }
}

/// A lent board on both sides.
struct Both {
    lent: Lent,
    /// The whole lent part, as it must be.
    right: Vec<u8>,
    /// The board before the first call, and the calls.
    first: Vec<u8>,
    calls: Vec<Call>,
}

impl Both {
    fn new(rng: &mut Rng) -> Both {
        let mut lent = Lent::new(rng, SIZE);
        let right = lent.bytes().to_vec();
        Both { lent, right, first: vec![], calls: vec![] }
    }

    /// One call on both sides: the same answer, the same bytes, and nothing written outside the board.
    fn call<D: Desk>(&mut self, desk: &mut D, call: &Call, tally: &mut Tally) -> Result<Answer, Found> {
        if self.calls.is_empty() {
            self.first.clone_from(&self.right);
        }
        self.calls.push(call.clone());
        let given = ask(desk, self.lent.bytes(), call);
        let right = ask(&mut Reference, &mut self.right, call);
        tally.calls += 1;
        tally.fields += u64::from(matches!(call, Call::Record(_)));
        match (&right, call) {
            (Err(refused), _) => *tally.refused.entry(refused.number).or_default() += 1,
            (Ok(_), Call::Record(_)) => tally.records += 1,
            (Ok(_), Call::Clear(_)) => tally.cleared += 1,
            _ => {}
        }
        if given != right {
            return Err(self.found(format!("the unit says {given:?}, the rules say {right:?}")));
        }
        if self.lent.bytes() != self.right {
            let theirs = self.lent.bytes().to_vec();
            return Err(self.found(format!(
                "the bytes differ: {}, right is {}",
                hex(&theirs),
                hex(&self.right)
            )));
        }
        self.lent.guarded().map_err(|what| self.found(what))?;
        Ok(right)
    }

    fn found(&self, what: String) -> Found {
        let board = [format!("board {}", hex(&self.first))];
        Found::new(what, board.into_iter().chain(self.calls.iter().map(Call::to_string)).collect())
    }
}

/// One case.
pub fn case<D: Desk>(desk: &mut D, rng: &mut Rng, tally: &mut Tally) -> Result<(), Found> {
    tally.cases += 1;
    match rng.below(4) {
        0 => damaged(desk, rng, tally),
        1 => orders(desk, rng, tally),
        2 => short(desk, rng, tally),
        _ => list(desk, rng, tally),
    }
}

/// A list of calls from an empty board. What the lines show is each train's last accepted record since its last clear, by the answers alone.
fn list<D: Desk>(desk: &mut D, rng: &mut Rng, tally: &mut Tally) -> Result<(), Found> {
    let mut both = Both::new(rng);
    let pool = draw::pool(rng);
    let mut last: BTreeMap<u32, Record> = BTreeMap::new();
    let _ = both.call(desk, &Call::Begin, tally)?;
    for _ in 0..rng.pick(&[20, 100, 400]) {
        let journal = read(&both.right).ok_or_else(|| both.found("the rules left no board".to_string()))?;
        let call = any_call(rng, &journal, &pool);
        let answer = both.call(desk, &call, tally)?;
        match (&call, &answer) {
            (_, Err(Refused { number: 29, .. })) => return Err(both.found("29 after calls".to_string())),
            (Call::Record(field), Ok(_)) => {
                let record = super::bytes::read_field(field).expect("it was accepted");
                last.insert(record.train, record);
            }
            (Call::Clear(train), Ok(_)) => {
                last.remove(train);
            }
            _ => {}
        }
    }
    let mut shown = BTreeMap::new();
    for line in 0..LINES {
        if let Ok((_, Some(x))) = both.call(desk, &Call::Line(line), tally)? {
            let record = Record {
                train: x.train as u32,
                cell: x.cell as u16,
                kind: x.kind as u8,
                sequence: x.sequence as u32,
            };
            if shown.insert(record.train, record).is_some() {
                return Err(both.found(format!("train {} is shown twice", record.train)));
            }
        }
    }
    if shown != last {
        return Err(both.found(format!("the lines show {shown:?}, the last records are {last:?}")));
    }
    Ok(())
}

fn any_call(rng: &mut Rng, journal: &Journal, pool: &[u32]) -> Call {
    let train = rng.pick(pool);
    match rng.below(16) {
        0 => Call::Line(rng.pick(&[0, 1, 5, 62, 63, 64, 255])),
        1 | 2 => Call::Clear(train),
        3 | 4 => {
            let right = draw::following(rng, journal, train);
            let record = draw::wrong(rng, right);
            Call::Record(draw::field_bytes(rng, record))
        }
        5 => {
            let right = draw::following(rng, journal, train);
            Call::Record(draw::field_bytes(rng, right))
        }
        _ => Call::Record(super::bytes::field(draw::following(rng, journal, train))),
    }
}

/// A board that no call made, damaged or not: whether it is one, and what each call makes of it.
fn damaged<D: Desk>(desk: &mut D, rng: &mut Rng, tally: &mut Tally) -> Result<(), Found> {
    let mut both = Both::new(rng);
    let pool = draw::pool(rng);
    let journal = draw::journal(rng, &pool);
    let mut bytes = vec![0; SIZE];
    super::bytes::write(&journal, &mut bytes);
    for _ in 0..rng.pick(&[0, 1, 1, 2, 9]) {
        draw::damage(rng, &mut bytes);
    }
    both.lent.bytes()[..SIZE].copy_from_slice(&bytes);
    both.right[..SIZE].copy_from_slice(&bytes);
    tally.boards += 1;
    tally.boards_good += u64::from(read(&bytes).is_some());
    let _ = both.call(desk, &Call::Line(rng.below(66) as u8), tally)?;
    for _ in 0..6 {
        let call = any_call(rng, &journal, &pool);
        let _ = both.call(desk, &call, tally)?;
    }
    let train = rng.pick(&pool);
    let _ = both.call(desk, &Call::Clear(train), tally)?;
    Ok(())
}

/// Boards of too few bytes: 7 for beginning, 29 for the others.
fn short<D: Desk>(desk: &mut D, rng: &mut Rng, tally: &mut Tally) -> Result<(), Found> {
    let length = rng.pick(&[0, 1, 15, 16, 512, 1_008, 1_016, 1_023]);
    let pool = draw::pool(rng);
    let field = super::bytes::field(draw::following(rng, &Journal::default(), pool[0]));
    for call in [Call::Begin, Call::Record(field), Call::Clear(pool[0]), Call::Line(0)] {
        let mut lent = Lent::new(rng, SIZE);
        if !rng.once_in(3) {
            lent.bytes().fill(0);
        }
        let before = lent.short(length).to_vec();
        let given = ask(desk, lent.short(length), &call);
        let right = ask(&mut Reference, &mut before.clone(), &call);
        tally.calls += 1;
        tally.fields += u64::from(matches!(call, Call::Record(_)));
        *tally.refused.entry(right.err().map_or(0, |refused| refused.number)).or_default() += 1;
        if given != right || lent.short(length) != before {
            let what = format!("the unit says {given:?}, the rules say {right:?}");
            return Err(Found::new(what, vec![format!("a board of {length} bytes"), call.to_string()]));
        }
    }
    Ok(())
}

/// Two records of different trains, one of them on the board, right or wrong: the unit gives the same answers and bytes in either order.
fn orders<D: Desk>(desk: &mut D, rng: &mut Rng, tally: &mut Tally) -> Result<(), Found> {
    let mut pool = draw::pool(rng);
    pool.push(rng.word() as u32);
    let journal = draw::journal(rng, &pool);
    let Some(one) = journal.trains.keys().nth(rng.index(journal.trains.len().max(1))).copied() else {
        return Ok(());
    };
    let other = rng.pick(&pool);
    if one == other {
        return Ok(());
    }
    let mut fields = [one, other].map(|train| {
        let right = draw::following(rng, &journal, train);
        let record = if rng.once_in(3) { draw::wrong(rng, right) } else { right };
        super::bytes::field(Record { train, ..record })
    });
    let mut board = vec![0; SIZE];
    super::bytes::write(&journal, &mut board);
    let mut outcomes = vec![];
    for _ in 0..2 {
        let mut bytes = board.clone();
        let mut answers: Vec<(Vec<u8>, Answer)> = vec![];
        for field in &fields {
            let answer = ask(desk, &mut bytes, &Call::Record(field.clone()));
            answers.push((field.clone(), answer));
        }
        answers.sort_by(|x, y| x.0.cmp(&y.0));
        outcomes.push((answers, bytes));
        fields.reverse();
    }
    tally.calls += 4;
    tally.fields += 4;
    tally.orders += 1;
    if outcomes[0] != outcomes[1] {
        let said = vec![format!("board {}", hex(&board)), hex(&fields[0]), hex(&fields[1])];
        return Err(Found::new("the order of the two records matters".to_string(), said));
    }
    // And they are the rules' answers.
    let mut right = board.clone();
    for field in &fields {
        let answer = ask(&mut Reference, &mut right, &Call::Record(field.clone()));
        let given = outcomes[0].0.iter().find(|(said, _)| said == field).map(|(_, answer)| *answer);
        if given != Some(answer) {
            let said = vec![format!("board {}", hex(&board)), format!("record {}", hex(field))];
            return Err(Found::new(format!("the unit says {given:?}, the rules say {answer:?}"), said));
        }
    }
    Ok(())
}

/// The case of this number, with other random numbers than those of the other comparisons.
pub fn one<D: Desk>(desk: &mut D, seed: u64, number: u64, tally: &mut Tally) -> Result<(), Found> {
    case(desk, &mut Rng::of_case(seed ^ 0x0030_0B0A_4D00_0000, number), tally)
}

/// Cases from `first` on while `more` says so, with the case that shows a difference.
pub fn compare<D: Desk>(
    desk: &mut D,
    seed: u64,
    first: u64,
    more: impl FnMut(u64) -> bool,
    tally: &mut Tally,
) -> Result<(), (u64, Found)> {
    cases(first, more, |number| one(desk, seed, number, tally))
}

/// A train that joined, for the boundary's test of short answer buffers.
pub fn sample() -> Vec<u8> {
    let mut board = vec![0; SIZE];
    let field = super::bytes::field(Record { train: 1, cell: 2, kind: JOINED, sequence: 3 });
    Reference.record(&mut board, &field).expect("a first join");
    board
}
