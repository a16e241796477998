//! Completions for bash and zsh, from the table of commands. Both offer the names of commands,
//! options, and the values and operands that the table knows; elsewhere the shell offers files.
use crate::table::{Command, COMMANDS};

mod bash;
#[cfg(test)]
mod tests;
mod zsh;

pub use bash::bash;
pub use zsh::zsh;

/// The command behind which the name of another one stands.
const HELP: &str = "help";

/// The first words of the commands' names, each once.
fn first_words() -> Vec<&'static str> {
    let mut words = Vec::new();
    for command in COMMANDS {
        let (first, _) = name(command);
        if !words.contains(&first) {
            words.push(first);
        }
    }
    words
}

/// The commands whose names have two words, of which this is the first.
fn under(first: &str) -> impl Iterator<Item = (&'static Command, &'static str)> + '_ {
    COMMANDS
        .iter()
        .filter_map(move |command| match name(command) {
            (word, Some(second)) if word == first => Some((command, second)),
            _ => None,
        })
}

/// The first word of a command's name, and the second where it has two.
fn name(command: &Command) -> (&'static str, Option<&'static str>) {
    match command.name.split_once(' ') {
        Some((first, second)) => (first, Some(second)),
        None => (command.name, None),
    }
}

/// The commands that have operands and options of their own.
fn commands() -> impl Iterator<Item = &'static Command> {
    COMMANDS.iter().filter(|command| command.name != HELP)
}

/// A word as it is typed in a shell.
fn typed(word: &str) -> String {
    let mut text = String::new();
    for letter in word.chars() {
        if !letter.is_alphanumeric() && !"-_.,:/+=".contains(letter) {
            text.push('\\');
        }
        text.push(letter);
    }
    text
}

/// Text as one word of a script, whatever it holds.
fn quoted(text: &str) -> String {
    format!("'{}'", text.replace('\'', "'\\''"))
}
