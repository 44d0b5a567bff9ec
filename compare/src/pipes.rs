//! Programs compared by pipe: each gets a session on its standard input, and what it prints must be what the rules
//! say, byte for byte.

use crate::driver::report::{hex, Difference, Found};
use crate::gen::sessions;
use crate::rng::Rng;
use crate::session;
use std::io::{ErrorKind, Read, Write};
use std::path::Path;
use std::process::{Command, Stdio};

/// What a program prints for an input. A program that is ended by a signal has no output.
pub fn output(program: &Path, input: &[u8]) -> Result<Vec<u8>, String> {
    let failed = |what: &str, error: std::io::Error| format!("{}: {what}: {error}", program.display());
    let mut child = Command::new(program)
        .stdin(Stdio::piped())
        .stdout(Stdio::piped())
        .spawn()
        .map_err(|error| failed("cannot be started", error))?;
    let mut stdin = child.stdin.take().expect("the child's input is a pipe");
    let mut stdout = child.stdout.take().expect("the child's output is a pipe");
    let mut printed = Vec::new();
    std::thread::scope(|scope| {
        let writer = scope.spawn(move || match stdin.write_all(input) {
            // A program may stop reading where it has seen enough.
            Err(error) if error.kind() != ErrorKind::BrokenPipe => Err(error),
            _ => Ok(()),
        });
        let read = stdout.read_to_end(&mut printed);
        let written = writer.join().expect("the writer ends");
        read.and(written).map_err(|error| failed("the pipe", error))
    })?;
    let status = child.wait().map_err(|error| failed("cannot be waited for", error))?;
    if status.code().is_none() {
        return Err(format!("{}: ended by a signal: {status}", program.display()));
    }
    Ok(printed)
}

/// Feeds `cases` sessions to the program. Answers how many bytes went in.
pub fn compare(program: &Path, seed: u64, first: u64, cases: u64) -> Result<u64, Difference> {
    let mut fed = 0;
    for case in first..first + cases {
        let input = sessions::for_program(&mut Rng::of_case(seed, case));
        let expected = session::program(&input);
        let found = match output(program, &input) {
            Ok(printed) if printed == expected.as_bytes() => None,
            Ok(printed) => {
                Some(format!("it prints:\n{}the rules:\n{expected}", String::from_utf8_lossy(&printed)))
            }
            Err(error) => Some(error),
        };
        if let Some(what) = found {
            let shown_by = vec![format!("{} gets {}", program.display(), hex(&input))];
            return Err(Difference { seed, case, found: Found::new(what, shown_by) });
        }
        fed += input.len() as u64;
    }
    Ok(fed)
}
