//! The commands, once: the words of the help, of the manual and of the completions, and what
//! arguments a command takes, all come from here.
mod commands;
mod options;

use crate::arguments::Arguments;
use crate::fault::Result;
pub use commands::COMMANDS;

pub struct Command {
    /// One word, or two as in `draw heat`.
    pub name: &'static str,
    /// What stands behind the name, without options.
    pub operands: &'static [Operand],
    pub summary: &'static str,
    pub details: &'static str,
    pub options: &'static [&'static [Flag]],
    pub examples: &'static [&'static str],
    pub run: fn(&Arguments) -> Result<()>,
}

pub struct Operand {
    pub name: &'static str,
    pub count: Count,
    /// The words it may be; any file where there are none.
    pub choices: &'static [&'static str],
}

#[derive(Clone, Copy, Debug, PartialEq, Eq)]
pub enum Count {
    One,
    AtMostOne,
    Some,
    Any,
}

pub struct Flag {
    pub name: &'static str,
    /// What its value is called; empty where it has none.
    pub value: &'static str,
    pub words: &'static str,
    /// The values to complete it with, where these are known; a value that ends in `:` goes on.
    pub choices: &'static [&'static str],
}

impl Command {
    pub fn flags(&self) -> impl Iterator<Item = &'static Flag> {
        self.options.iter().flat_map(|group| group.iter())
    }

    pub fn flag(&self, name: &str) -> Option<&'static Flag> {
        self.flags().find(|flag| flag.name == name)
    }

    /// The name with its operands, as in `check CHAIN..`.
    pub fn usage(&self) -> String {
        let shown = self.operands.iter().map(|operand| match operand.count {
            Count::One => format!(" {}", operand.name),
            Count::AtMostOne | Count::Any => format!(" [{}]", operand.name),
            Count::Some => format!(" {}..", operand.name),
        });
        let options = if self.options.is_empty() {
            ""
        } else {
            " [OPTION..]"
        };
        self.name.to_string() + &shown.collect::<String>() + options
    }
}

/// The command at the beginning of a list of words, and how many of them are its name.
pub fn find(words: &[String]) -> Option<(&'static Command, usize)> {
    let called = |command: &Command, count: usize| {
        words
            .get(..count)
            .is_some_and(|words| words.join(" ") == command.name)
    };
    let at = |count: usize| COMMANDS.iter().find(|command| called(command, count));
    at(2)
        .map(|found| (found, 2))
        .or(at(1).map(|found| (found, 1)))
}

/// What the list of commands and the manual say of the tool as a whole.
pub const ABOUT: &str = "\
Plans, verdicts and smoothed words come from the library, whose functions are proved to meet their
contracts. Reading and writing CSV, placing firings on the map, words and pictures are plain code.";

pub const STATUS: &str = "\
Status 0: done, or yes. 1: the library's no (refused, stalled, starved, check). 2: usage, files, CSV,
a failed write. A FILE of - is standard input or output.";
