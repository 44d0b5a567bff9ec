//! The commands, each in a module of its own.

mod board;
mod explain;
mod page;
mod picture;
mod plan;
mod run;
mod session;
mod setup;
mod table;

use crate::fault::Fault;

/// A command: its name, what it does in a line, its help, and what runs it on the words behind its name.
pub struct Command {
    pub name: &'static str,
    pub does: &'static str,
    pub help: &'static str,
    pub run: fn(&[String]) -> Result<u8, Fault>,
}

pub const ALL: &[Command] = &[
    Command {
        name: "plan",
        does: "a plan of lanes as a table: shares, groups, worst waits",
        help: plan::HELP,
        run: plan::run,
    },
    Command { name: "setup", does: "write the bytes of a setup", help: setup::HELP, run: setup::run },
    Command { name: "sheet", does: "write a text sheet", help: setup::SHEET_HELP, run: setup::sheet },
    Command {
        name: "page",
        does: "a settings page: written, shown, or offered to a table",
        help: page::HELP,
        run: page::run,
    },
    Command {
        name: "session",
        does: "a session's text to bytes and back",
        help: session::HELP,
        run: session::run,
    },
    Command {
        name: "run",
        does: "run a session: requests and answers side by side",
        help: run::HELP,
        run: run::run,
    },
    Command { name: "picture", does: "a session as a picture (SVG)", help: picture::HELP, run: picture::run },
    Command { name: "table", does: "show a table that was kept", help: table::HELP, run: table::run },
    Command {
        name: "board",
        does: "the desk's board from a journal, as text or as a page",
        help: board::HELP,
        run: board::run,
    },
    Command { name: "explain", does: "a refusal's number in words", help: explain::HELP, run: explain::run },
];
