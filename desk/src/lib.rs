//! The desk tool: maps in CSV, sheets in words, pictures. Plans, verdicts and smoothed words are the
//! proved library's (`rust/zohmirka`); CSV, placing and pictures are plain code.
#![forbid(unsafe_code)]

pub mod arguments;
pub mod bins;
pub mod commands;
pub mod completions;
pub mod csv;
pub mod fault;
pub mod files;
pub mod grid;
pub mod manual;
pub mod maps;
mod numerals;
pub mod place;
pub mod request;
pub mod results;
pub mod sheet;
pub mod smoothing;
pub mod svg;
pub mod table;
pub mod verdict;
pub mod wording;

use arguments::Arguments;
use fault::{trouble, Result};

/// Does what the words of a command line ask for, and answers the exit status; None are words that
/// are no text.
pub fn status(words: Option<Vec<String>>) -> u8 {
    let done = match words {
        Some(words) => answer(&words),
        None => trouble("an argument is not UTF-8"),
    };
    match done {
        Ok(()) => 0,
        Err(fault) => {
            files::note(fault.text());
            fault.status()
        }
    }
}

fn answer(words: &[String]) -> Result<()> {
    let Some(first) = words.first() else {
        return trouble(format!("no command\n{}", commands::help::list()));
    };
    match first.as_str() {
        "-h" | "--help" => return commands::help::print(&commands::help::list()),
        "-V" | "--version" => return commands::help::version(),
        _ => {}
    }
    let Some((command, name)) = table::find(words) else {
        return trouble(commands::help::no_command(first));
    };
    let rest = &words[name..];
    if rest
        .iter()
        .take_while(|word| *word != "--")
        .any(|word| word == "-h" || word == "--help")
    {
        return commands::help::print(&commands::help::page(command));
    }
    (command.run)(&Arguments::parse(command, rest)?)
}
