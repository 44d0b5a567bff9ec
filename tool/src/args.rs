//! The words of a command line: options, with or without a value, and the other words.

use crate::fault::Fault;
use crate::text::digits;

pub struct Args {
    command: &'static str,
    options: Vec<(String, Option<String>)>,
    pub rest: Vec<String>,
}

impl Args {
    /// Reads the words behind a command. `valued` are the options that take a value, `flags` those that take none.
    pub fn read(
        command: &'static str,
        words: &[String],
        valued: &[&str],
        flags: &[&str],
    ) -> Result<Args, Fault> {
        let mut args = Args { command, options: Vec::new(), rest: Vec::new() };
        let mut words = words.iter();
        while let Some(word) = words.next() {
            if word == "--" {
                args.rest.extend(words.cloned());
                break;
            }
            if !word.starts_with('-') || word == "-" {
                args.rest.push(word.clone());
                continue;
            }
            let word = if word == "-o" { "--output" } else { word };
            let (name, value) = match word.split_once('=') {
                Some((name, value)) => (name, Some(value.to_string())),
                None => (word, None),
            };
            if valued.contains(&name) {
                let Some(value) = value.or_else(|| words.next().cloned()) else {
                    return Err(args.usage(format!("the option {name} needs a value")));
                };
                args.options.push((name.to_string(), Some(value)));
            } else if flags.contains(&name) {
                if value.is_some() {
                    return Err(args.usage(format!("the option {name} takes no value")));
                }
                args.options.push((name.to_string(), None));
            } else {
                return Err(args.usage(format!("there is no option {name}")));
            }
        }
        Ok(args)
    }

    /// A fault of the command line, with the way to its help.
    pub fn usage(&self, says: impl std::fmt::Display) -> Fault {
        Fault::Usage(format!("{0}: {says} ('zenfrosta {0} --help' says how)", self.command))
    }

    pub fn flag(&self, name: &str) -> bool {
        self.options.iter().any(|(option, _)| option == name)
    }

    /// The values of an option, in their order.
    pub fn values<'a>(&'a self, name: &'a str) -> impl Iterator<Item = &'a str> {
        self.options
            .iter()
            .filter(move |(option, _)| option == name)
            .filter_map(|(_, value)| value.as_deref())
    }

    /// The value of an option; the last one counts.
    pub fn value<'a>(&'a self, name: &'a str) -> Option<&'a str> {
        self.values(name).last()
    }

    /// An option's value as a number from `least` to `most`.
    pub fn number(&self, name: &str, least: u64, most: u64) -> Result<Option<u64>, Fault> {
        let Some(text) = self.value(name) else { return Ok(None) };
        match digits(text) {
            Some(number) if (least..=most).contains(&number) => Ok(Some(number)),
            _ => Err(self.usage(format!("{name} is '{text}', and not a number from {least} to {most}"))),
        }
    }

    /// The one file: '-', standard input, where none is named.
    pub fn file(&self) -> Result<&str, Fault> {
        match self.rest.as_slice() {
            [] => Ok("-"),
            [one] => Ok(one),
            [_, more, ..] => Err(self.usage(format!("one file only, and '{more}' is a second"))),
        }
    }
}
