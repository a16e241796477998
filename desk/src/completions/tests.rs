//! Bash is asked itself what it would offer; where it is not at hand these tests say nothing.
use super::{bash, commands, typed, zsh, HELP};
use crate::table::COMMANDS;
use std::process::Command;

const ASK: &str = r#"
COMP_WORDS=("$@")
COMP_CWORD=$(($# - 1))
_zohmirka
for word in "${COMPREPLY[@]}"; do echo "$word"; done
"#;

/// What is offered for the last of these words, after the others; the words as bash parts them.
fn offered(words: &[&str]) -> Option<String> {
    let script = bash() + ASK;
    let mut shell = Command::new("bash");
    shell
        .args(["--norc", "-c", &script, "bash", "zohmirka"])
        .args(words);
    let output = shell.output().ok()?;
    assert_eq!(String::from_utf8_lossy(&output.stderr), "", "{words:?}");
    let lines = String::from_utf8(output.stdout).expect("the table's words are text");
    Some(lines.lines().collect::<Vec<_>>().join(" "))
}

#[track_caller]
fn offers(words: &[&str], expected: &str) {
    if let Some(offered) = offered(words) {
        assert_eq!(offered, expected, "{words:?}");
    }
}

#[test]
fn names_of_commands() {
    offers(&["sm"], "smooth");
    offers(&["c"], "cells check completions");
    offers(&["p"], "pair plan");
    offers(&["draw"], "draw");
    offers(&["dr"], "draw");
    offers(&["draw", ""], "heat chain time");
    offers(&["draw", "t"], "time");
    offers(&["--"], "--help --version");
    offers(&["help", "dr"], "draw");
    offers(&["help", "draw", ""], "heat chain time");
    offers(&["help", "check", ""], "");
    offers(&["help", "check", "-"], "");
    offers(&["nothing", ""], "");
    assert!(COMMANDS.iter().any(|command| command.name == HELP));
}

#[test]
fn options_and_their_values() {
    offers(&["draw", "time", "a.chain", "-"], "--from --to -o --help");
    offers(&["draw", "time", "--f"], "--from");
    offers(&["plan", "--t"], "--table");
    offers(
        &["smooth", "a.csv", "--window", ""],
        "cross four square seven nineteen",
    );
    offers(&["smooth", "a.csv", "--window", "s"], "square seven");
    offers(
        &["smooth", "a.csv", "--window", "="],
        "cross four square seven nineteen",
    );
    offers(&["smooth", "a.csv", "--window", "=", "c"], "cross");
    offers(&["smooth", "a.csv", "--kernel", "b"], "blend:");
    offers(&["smooth", "a.csv", "--delimiter", ""], ", \\; tab");
    offers(&["smooth", "a.csv", "--delimiter", "\\"], "\\;");
    offers(&["run", "a.chain", "--csv", "--f"], "--fill");
    offers(
        &["pair", "a.request", "b.request", "--s"],
        "--slanted --svg --second",
    );
    offers(&["completions", ""], "bash zsh");
    offers(&["completions", "z"], "zsh");
}

#[test]
fn files_elsewhere() {
    for words in [
        ["cells", ""].as_slice(),
        &["smooth", "fu"],
        &["smooth", "a.csv", "-o", ""],
        &["smooth", "a.csv", "--svg", "-"],
        &["run", "a.chain", "--csv", ""],
        &["plan", "--grid", "like", ":", "fu"],
        &["check", "--", "-"],
    ] {
        offers(words, "");
    }
    assert!(bash().ends_with("\ncomplete -o bashdefault -o default -F _zohmirka zohmirka\n"));
}

/// A word with a space, a sign of the shell or a quote is inserted so that the shell reads it back.
#[test]
fn words_are_inserted_as_they_are_typed() {
    assert_eq!(typed("blend:0.5,0.125"), "blend:0.5,0.125");
    assert_eq!(
        (typed(";"), typed("a b"), typed("it's")),
        ("\\;".into(), "a\\ b".into(), "it\\'s".into())
    );
}

/// Forms of `_arguments`, worked out by hand from its manual.
#[test]
fn zsh_forms() {
    let script = zsh();
    for form in [
        "'1:CHAIN:_files'",
        "'2:MAP:_files'",
        "'2:REQUEST:_files'",
        "'3:MAP:_files'",
        "'1::REQUEST:_files'",
        "'*:CHAIN:_files'",
        "'1:SHELL:(bash zsh)'",
        "'--rim=[cells without a result\\: empty (as without it), or keep the text as read]:WHAT:(empty keep)'",
        "'--csv[a line for each firing\\: the indices of its iteration, then its words]'",
        "'-o[where the result goes, whole or not at all; standard output without it]:FILE:_files'",
        ":KERNEL:(raw difference scaled\\: blend\\:)'",
    ] {
        assert!(script.contains(form), "{form}");
    }
}

/// Zsh is not asked: only that each command and option is there is looked at.
#[test]
fn zsh_has_each_command_and_option() {
    let script = zsh();
    assert!(script.starts_with("#compdef zohmirka\n"));
    for command in commands() {
        let case = format!("\n    '{}')\n", command.name);
        let (_, rest) = script.split_once(&case).expect("each command has its case");
        let (forms, _) = rest.split_once("\n        ;;\n").expect("each case ends");
        for flag in command.flags() {
            let form = format!("            '{}", flag.name);
            assert!(forms.contains(&form), "{} {}", command.name, flag.name);
        }
    }
}
