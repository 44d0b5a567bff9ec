//! The calls and their answers as values: what a list of demand 2 and of demand 3 is made of.

use crate::fields::Fault;
use std::fmt;
use std::rc::Rc;

/// A record that take handed out or that look names: its lane, mark and length (R3.11), and its train, which is 0 in a lane that is not shared.
#[derive(Clone, Copy, Debug, PartialEq, Eq)]
pub struct Taken {
    pub lane: u8,
    pub train: u8,
    pub mark: u32,
    pub length: u64,
}

#[derive(Clone, Debug, PartialEq, Eq)]
pub enum Call {
    /// A put without a train means train 0.
    Put {
        lane: u8,
        mark: u32,
        length: u64,
    },
    PutTrain {
        lane: u8,
        train: u8,
        mark: u32,
        length: u64,
    },
    Take,
    Look,
    Sets,
    Lag {
        lane: u8,
    },
    Restart,
    /// A settings page is offered, as bytes (R19.7).
    Offer(Rc<[u8]>),
}

/// R3.23: each kind of answer is a case of its own.
#[derive(Clone, Copy, Debug, PartialEq, Eq)]
pub enum Answer {
    /// How many records of its train the lane held before the put: those of the train that go out before this one.
    Put(u64),
    Taken(Taken),
    Looked(Taken),
    Sets([u64; 4]),
    Lag(i64),
    Restarted,
    /// An offered page is in force,
    InForce,
    /// or waits.
    Waits,
    /// A refusal, 10 to 16, 60, 70 or 71.
    No(u8),
    /// An offered page cannot be read: 1 to 4, 6 or 50 to 54, with the place in the page.
    Unread(Fault),
}

impl Call {
    /// Look, sets and lag change nothing, whatever they answer.
    pub fn only_reads(&self) -> bool {
        matches!(self, Call::Look | Call::Sets | Call::Lag { .. })
    }

    /// The lane, train, mark and length of a put.
    pub fn put(&self) -> Option<(u8, u8, u32, u64)> {
        match self {
            Call::Put { lane, mark, length } => Some((*lane, 0, *mark, *length)),
            Call::PutTrain { lane, train, mark, length } => Some((*lane, *train, *mark, *length)),
            _ => None,
        }
    }
}

impl Answer {
    pub fn refused(&self) -> bool {
        matches!(self, Answer::No(_) | Answer::Unread(_))
    }

    /// The session's line for it, without its line feed (R10.12). `shared` tells whether trains share a lane: a record's line then has its train at the end.
    pub fn line(&self, shared: impl Fn(u8) -> bool) -> String {
        match self {
            Answer::Taken(r) | Answer::Looked(r) if shared(r.lane) => format!("{self} {}", r.train),
            _ => self.to_string(),
        }
    }
}

impl fmt::Display for Call {
    fn fmt(&self, f: &mut fmt::Formatter) -> fmt::Result {
        match self {
            Call::Put { lane, mark, length } => write!(f, "put {lane}/{mark}/{length}"),
            Call::PutTrain { lane, train, mark, length } => {
                write!(f, "put {lane}/{mark}/{length} for train {train}")
            }
            Call::Take => write!(f, "take"),
            Call::Look => write!(f, "look"),
            Call::Sets => write!(f, "sets"),
            Call::Lag { lane } => write!(f, "lag {lane}"),
            Call::Restart => write!(f, "restart"),
            Call::Offer(page) => {
                write!(f, "offer ")?;
                page.iter().try_for_each(|byte| write!(f, "{byte:02x}"))
            }
        }
    }
}

/// The session's line for an answer in a lane that is not shared, without its line feed. An offer has no line in a session.
impl fmt::Display for Answer {
    fn fmt(&self, f: &mut fmt::Formatter) -> fmt::Result {
        match self {
            Answer::Put(ahead) => write!(f, "put ok {ahead}"),
            Answer::Taken(r) => write!(f, "take {} {} {}", r.lane, r.mark, r.length),
            Answer::Looked(r) => write!(f, "look {} {} {}", r.lane, r.mark, r.length),
            Answer::Sets([a, b, c, d]) => write!(f, "sets {a} {b} {c} {d}"),
            Answer::Lag(n) => write!(f, "lag {n}"),
            Answer::Restarted => write!(f, "restart ok"),
            Answer::InForce => write!(f, "in force"),
            Answer::Waits => write!(f, "waits"),
            Answer::No(number) => write!(f, "no {number}"),
            Answer::Unread(fault) => write!(f, "{fault}"),
        }
    }
}
