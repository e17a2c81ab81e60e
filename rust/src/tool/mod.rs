//! The program for the bench: recordings become a library with names beside it, a sweep is matched and drawn, a torn sheet is looked at
//! and put together again. Which trace is nearest, what a sheet holds and what a recording holds is answered by the proved calls alone;
//! here are files, names and words.

mod add;
mod advise;
mod again;
mod arguments;
mod avx;
mod bands;
mod blocks;
mod bracket;
mod build;
mod check;
mod clipped;
mod constants;
mod convert;
mod csv;
mod disk;
mod drawing;
mod export;
#[cfg(test)]
mod faults;
mod files;
#[cfg(test)]
mod fuzzed;
mod hash;
mod help;
mod histogram;
mod info;
mod json;
mod labels;
mod limited;
mod limits;
mod list;
mod lock;
mod matching;
mod names;
mod noise;
mod numbers;
mod pages;
mod plain;
mod plot;
mod possible;
mod progress;
mod reading;
mod recordings;
mod remote;
mod rename;
mod repair;
mod report;
mod salvage;
mod shelf;
mod shelves;
mod standard;
mod svg;
mod table;
mod verdict;

mod words;

use arguments::{Arguments, Options};
use files::{Put, Written};
use std::ffi::OsString;
use std::io::{self, Write};
use std::path::Path;
use std::process::ExitCode;

/// What a command did.
#[derive(Debug)]
struct Told {
    /// For standard output.
    text: String,
    /// Whether nothing was found to be wrong.
    fine: bool,
    /// Something was written: whatever comes behind, that is so.
    wrote: bool,
    /// Standard output has the file that was asked for, and so the text goes to standard error.
    aside: bool,
    /// All was done, and then something went wrong: exit status 3.
    trouble: Option<String>,
}

/// Why a command did nothing.
#[derive(Debug)]
enum Failure {
    /// The words of the command line are not those of the command: exit status 2.
    Usage(String),
    /// A file, a sheet or a call said no: exit status 1.
    Refused(String),
}

type Answer = Result<Told, Failure>;

/// All was well.
fn done(text: String) -> Answer {
    Ok(Told { text, fine: true, wrote: false, aside: false, trouble: None })
}

/// All was well, and something was written.
fn written(text: String, output: Written) -> Answer {
    Ok(Told { text, fine: true, wrote: true, aside: output.standard, trouble: output.trouble })
}

/// A library was written.
fn saved(text: String, trouble: Put) -> Answer {
    written(text, Written { standard: false, trouble })
}

/// What was done to files to get their traces, a line each.
fn notes(found: &reading::Found) -> String {
    found.notes.iter().map(|note| format!("{note}\n")).collect()
}

fn refused<T>(text: String) -> Result<T, Failure> {
    Err(Failure::Refused(text))
}

fn wrong<T>(text: String) -> Result<T, Failure> {
    Err(Failure::Usage(text))
}

/// A command: how it is written, what it takes, and what it does.
struct Command {
    name: &'static str,
    usage: &'static str,
    /// A line for the list of commands.
    about: &'static str,
    /// All there is to say.
    text: &'static str,
    /// Options that take a value, and those that take none.
    values: Options,
    flags: Options,
    run: fn(&Arguments) -> Answer,
}

/// Runs the program with these words behind its name.
pub fn run(words: Vec<OsString>) -> ExitCode {
    let code = match answer(words) {
        Ok(told) => tell(&told),
        Err((Failure::Refused(why), _)) => {
            complain(&why);
            REFUSED
        }
        Err((Failure::Usage(why), command)) => {
            let hint = match command {
                Some(c) if c.name == "help" => "`silkendoz help` lists the commands.".to_string(),
                Some(c) => format!("usage: silkendoz {} {}\n`silkendoz help {}` says more.", c.name, c.usage, c.name),
                None => "`silkendoz help` lists the commands.".to_string(),
            };
            complain(&format!("{why}\n{hint}"));
            USAGE
        }
    };
    ExitCode::from(code)
}

const DONE: u8 = 0;
const REFUSED: u8 = 1;
const USAGE: u8 = 2;
const DONE_WITH_TROUBLE: u8 = 3;

/// Prints what a command did, and gives its exit status. What was written is not called unwritten because a line could not be printed.
fn tell(told: &Told) -> u8 {
    let printed = if told.aside { print_aside(&told.text) } else { print(&told.text) };
    if let Some(why) = &told.trouble {
        complain(why);
    }
    match printed {
        Err(why) => {
            let done = if told.wrote { " The command was done all the same." } else { "" };
            complain(&format!("standard output cannot be written: {}.{done}", plain::why(&why)));
            if told.wrote {
                DONE_WITH_TROUBLE
            } else {
                REFUSED
            }
        }
        Ok(()) if told.trouble.is_some() => DONE_WITH_TROUBLE,
        Ok(()) if told.fine => DONE,
        Ok(()) => REFUSED,
    }
}

/// What the command answers; with a failure comes the command that was meant, if there is one.
fn answer(words: Vec<OsString>) -> Result<Told, (Failure, Option<&'static Command>)> {
    let mut words = words.into_iter();
    let Some(first) = words.next() else {
        return wrong("a command is missing.".to_string()).map_err(|why| (why, None));
    };
    let name = match first.to_str() {
        Some("-h" | "--help") => "help",
        Some("-V" | "--version") => return done(format!("silkendoz {}\n", env!("CARGO_PKG_VERSION"))).map_err(|why| (why, None)),
        Some(name) => name,
        None => "",
    };
    let Some(command) = help::command(name) else {
        return wrong(format!("there is no command `{}`.", plain::path(Path::new(&first)))).map_err(|why| (why, None));
    };
    let words: Vec<OsString> = words.collect();
    let asked = words.iter().take_while(|word| *word != "--").any(|word| word == "--help" || word == "-h");
    if asked {
        return done(help::about(command)).map_err(|why| (why, None));
    }
    let arguments = Arguments::of(words.into_iter(), command.values, command.flags);
    arguments.and_then(|arguments| (command.run)(&arguments)).map_err(|why| (why, Some(command)))
}

/// To standard output.
fn print(text: &str) -> io::Result<()> {
    standard::write(plain::for_terminal(text).as_bytes())
}

fn print_aside(text: &str) -> io::Result<()> {
    let _ = io::stderr().write_all(plain::for_terminal(text).as_bytes());
    Ok(())
}

/// To standard error, the program's name before the first line.
fn complain(text: &str) {
    let _ = writeln!(io::stderr(), "silkendoz: {}", plain::for_terminal(text));
}
