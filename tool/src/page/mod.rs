//! The board as a page: a small web server on a local address, and a thread that follows the journal.
//!
//! The page only shows. It is told of each change by server-sent events, and hears every two seconds that the tool still runs; if it hears nothing, it says
//! that what it shows may be old.

mod http;

use crate::args::Args;
use crate::desk::Desk;
use crate::fault::Fault;
use crate::journal::{Entry, Journal};
use std::fs::File;
use std::io::{self, Read};
use std::net::{SocketAddr, TcpListener};
use std::os::unix::fs::MetadataExt;
use std::sync::{Arc, Condvar, Mutex, MutexGuard};
use std::thread;
use std::time::Duration;

/// The address where none is given.
const ADDRESS: &str = "127.0.0.1:7064";

/// How often a file is looked at.
const LOOK: Duration = Duration::from_millis(200);

/// What the page shows, and how often it changed.
pub struct Shown {
    desk: Desk,
    source: String,
    /// What the journal's end is: `following`, or why it is followed no more.
    state: String,
    changes: u64,
}

impl Shown {
    fn json(&self) -> String {
        self.desk.json(&self.source, &self.state)
    }
}

pub struct Shared {
    shown: Mutex<Shown>,
    changed: Condvar,
}

impl Shared {
    fn lock(&self) -> MutexGuard<'_, Shown> {
        self.shown.lock().unwrap_or_else(|poisoned| poisoned.into_inner())
    }

    fn change(&self, what: impl FnOnce(&mut Shown)) {
        let mut shown = self.lock();
        what(&mut shown);
        shown.changes += 1;
        self.changed.notify_all();
    }
}

pub fn serve(args: &Args) -> Result<u8, Fault> {
    let path = args.file()?.to_string();
    let text = args.value("--address").unwrap_or(ADDRESS);
    let address: SocketAddr = text.parse().map_err(|_| {
        args.usage(format!("--address is '{text}', and not an address and a port, as {ADDRESS}"))
    })?;
    if !address.ip().is_loopback() {
        return Err(args.usage(format!("{} is no local address; 127.0.0.1 and ::1 are", address.ip())));
    }
    let source = if path == "-" { "standard input".to_string() } else { path.clone() };
    // A file that is not there is told before anything is served.
    let journal = if path == "-" {
        Source::Ends(Box::new(io::stdin()))
    } else {
        Source::open(&path).map_err(|error| Fault::File { name: path.clone(), error })?
    };
    let listener =
        TcpListener::bind(address).map_err(|error| Fault::File { name: text.to_string(), error })?;
    let address = listener.local_addr().map_err(|error| Fault::File { name: text.to_string(), error })?;
    let shown = Shown { desk: Desk::new(), source, state: "following".to_string(), changes: 0 };
    let shared = Arc::new(Shared { shown: Mutex::new(shown), changed: Condvar::new() });
    eprintln!("The board is at http://{address}/ (this computer only). Ctrl-C ends it.");
    let follower = Arc::clone(&shared);
    thread::spawn(move || follow(journal, &follower));
    http::serve(&listener, address, &shared);
    Ok(0)
}

/// Where a journal comes from.
enum Source {
    /// A file that grows, and its path.
    Grows(File, String),
    /// Standard input or a pipe: once it ends, it has ended.
    Ends(Box<dyn Read + Send>),
}

impl Source {
    fn open(path: &str) -> io::Result<Source> {
        let file = File::open(path)?;
        Ok(if file.metadata()?.is_file() {
            Source::Grows(file, path.to_string())
        } else {
            Source::Ends(Box::new(file))
        })
    }

    fn read(&mut self, buffer: &mut [u8]) -> io::Result<usize> {
        match self {
            Source::Grows(file, _) => file.read(buffer),
            Source::Ends(from) => from.read(buffer),
        }
    }

    /// At its end, with so many bytes read: why it is followed no more. What a file that was cut or replaced held is not known to be so any more.
    fn over(&self, read: u64) -> Option<String> {
        let Source::Grows(file, path) = self else { return Some("has ended".to_string()) };
        match (file.metadata(), std::fs::metadata(path)) {
            (Ok(open), Ok(named)) if (open.dev(), open.ino()) != (named.dev(), named.ino()) => {
                Some("was replaced: start the tool again".to_string())
            }
            (Ok(_), Ok(named)) if named.len() < read => {
                Some("became shorter: start the tool again".to_string())
            }
            (Ok(_), Ok(_)) => None,
            (Err(error), _) | (_, Err(error)) => Some(format!("cannot be read any more: {error}")),
        }
    }
}

/// Reads the journal as it grows.
fn follow(mut from: Source, shared: &Shared) {
    let mut journal = Journal::default();
    let mut buffer = vec![0; 65_536];
    let mut read: u64 = 0;
    let stopped = loop {
        match from.read(&mut buffer) {
            Err(error) if error.kind() == io::ErrorKind::Interrupted => {}
            Err(error) => break format!("cannot be read any more: {error}"),
            Ok(0) => match from.over(read) {
                None => thread::sleep(LOOK),
                Some(why) => break why,
            },
            Ok(size) => {
                read += size as u64;
                enter(shared, journal.feed(&buffer[..size]));
            }
        }
    };
    // Of a pipe the last line may have no line feed.
    if matches!(from, Source::Ends(_)) {
        enter(shared, journal.finish());
    }
    shared.change(|shown| shown.state = stopped);
}

fn enter(shared: &Shared, entries: Vec<Entry>) {
    if entries.is_empty() {
        return;
    }
    shared.change(|shown| {
        for entry in entries {
            // What is refused is kept by the desk, and shown.
            let _ = shown.desk.enter(entry);
        }
    });
}
