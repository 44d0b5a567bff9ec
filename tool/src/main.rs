//! The command `zenfrosta`: what the library does, for people. Everything that is decided is decided by the library's calls; the tool reads files, writes
//! files and shows what the calls answer.

#![forbid(unsafe_code)]

mod args;
mod commands;
mod desk;
mod fault;
mod fields;
mod figures;
mod files;
mod journal;
mod layout;
#[cfg(test)]
mod noise;
mod page;
mod pages;
mod picture;
mod plans;
mod script;
mod sessions;
mod text;
mod trace;
mod unfit;

use fault::Fault;
use std::process::ExitCode;

fn main() -> ExitCode {
    let words: Vec<String> =
        std::env::args_os().skip(1).map(|word| word.to_string_lossy().into_owned()).collect();
    match run(&words) {
        Ok(status) => ExitCode::from(status),
        Err(fault) => {
            let said = fault.to_string();
            if !said.is_empty() {
                eprintln!("{said}");
            }
            ExitCode::from(fault.status())
        }
    }
}

fn run(words: &[String]) -> Result<u8, Fault> {
    let asks_help = |word: &String| word == "--help" || word == "-h";
    let Some((name, words)) = words.split_first() else {
        return Err(Fault::Usage("which command? 'zenfrosta --help' lists them".to_string()));
    };
    if asks_help(name) || name == "help" && words.is_empty() {
        return say(&overview());
    }
    if name == "--version" || name == "-V" {
        return say(&version());
    }
    let (name, words, help) = match words {
        [other] if name == "help" => (other, words, true),
        _ => (name, words, words.iter().take_while(|word| *word != "--").any(asks_help)),
    };
    let Some(command) = commands::ALL.iter().find(|command| command.name == name) else {
        return Err(Fault::Usage(format!("there is no command '{name}'; 'zenfrosta --help' lists them")));
    };
    if help {
        return say(command.help);
    }
    (command.run)(words)
}

fn say(text: &str) -> Result<u8, Fault> {
    let none = args::Args::read("help", &[], &[], &[])?;
    files::write(&none, text.as_bytes())?;
    Ok(0)
}

fn version() -> String {
    format!("zenfrosta {} (library {})\n", env!("CARGO_PKG_VERSION"), zenfrosta::version())
}

fn overview() -> String {
    let mut text = "\
zenfrosta COMMAND [WORDS]

Zenfrosta schedules the records of a trackside radio unit. This tool shows and writes what the library reads.

"
    .to_string();
    for command in commands::ALL {
        text += &format!("  {:<9} {}\n", command.name, command.does);
    }
    text += "
  --version  the tool's version
  --help     this; 'zenfrosta COMMAND --help' for a command

A file that is not named, or '-', is standard input. Exit status: 0 done, 1 the input is refused, 2 the command line is
wrong, 3 a file cannot be read or written.
";
    text
}
