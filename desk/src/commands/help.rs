use crate::arguments::Arguments;
use crate::completions;
use crate::fault::{trouble, Result};
use crate::manual;
use crate::results::Results;
use crate::table::{find, Command, Flag, ABOUT, COMMANDS, STATUS};
use crate::wording::columns;

pub fn run(arguments: &Arguments) -> Result<()> {
    match arguments.operands.as_slice() {
        [] => print(&list()),
        words => match find(words) {
            Some((command, name)) if name == words.len() => print(&page(command)),
            _ => trouble(no_command(&words.join(" "))),
        },
    }
}

pub fn manual(arguments: &Arguments) -> Result<()> {
    Results::write(arguments.value("-o"), manual::manual())
}

pub fn completions(arguments: &Arguments) -> Result<()> {
    let text = match arguments.operands[0].as_str() {
        "bash" => completions::bash(),
        "zsh" => completions::zsh(),
        other => return trouble(format!("completions {other:?}: there are bash and zsh")),
    };
    Results::write(arguments.value("-o"), text)
}

pub fn version() -> Result<()> {
    let text = format!(
        "zohmirka {}, library interface {}\n",
        env!("CARGO_PKG_VERSION"),
        zohmirka::version()
    );
    print(&text)
}

pub fn print(text: &str) -> Result<()> {
    Results::write(None, text)
}

/// What is said of a word that names no command: how it goes on, where it is the first of two.
pub fn no_command(word: &str) -> String {
    let begun = |command: &&Command| {
        command
            .name
            .split_once(' ')
            .is_some_and(|(first, _)| first == word)
    };
    let longer: Vec<String> = COMMANDS
        .iter()
        .filter(begun)
        .map(|command| format!("`{}`", command.name))
        .collect();
    if longer.is_empty() {
        return format!("{word:?} is no command; `zohmirka help` lists them");
    }
    format!("{word:?} goes on: {}", longer.join(", "))
}

/// The list of commands.
pub fn list() -> String {
    let lines: Vec<Vec<String>> = COMMANDS
        .iter()
        .map(|command| vec![format!("  {}", command.name), command.summary.to_string()])
        .collect();
    format!(
        "zohmirka: maps and reuse chains at the desk\n\nusage: zohmirka COMMAND ..\n\n{}\n\
         `zohmirka help COMMAND` has the rest, `zohmirka man` the manual.\n\n{ABOUT}\n\n{STATUS}\n",
        columns(&lines)
    )
}

/// The page of a command.
pub fn page(command: &Command) -> String {
    let mut page = format!(
        "usage: zohmirka {}\n\n{}\n",
        command.usage(),
        command.summary
    );
    if !command.details.is_empty() {
        page += &format!("\n{}\n", command.details);
    }
    let options: Vec<Vec<String>> = command.flags().map(option).collect();
    if !options.is_empty() {
        page += &format!("\nOptions:\n{}", columns(&options));
    }
    page += "\nExamples:\n";
    page.extend(
        command
            .examples
            .iter()
            .map(|example| format!("  {example}\n")),
    );
    page
}

fn option(flag: &Flag) -> Vec<String> {
    vec![
        format!("  {} {}", flag.name, flag.value)
            .trim_end()
            .to_string(),
        flag.words.to_string(),
    ]
}
