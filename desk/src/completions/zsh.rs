//! The script for zsh.
use super::{commands, first_words, quoted, typed, under, HELP};
use crate::table::{Command, Count, Flag, Operand, COMMANDS};

const BEGINNING: &str = "#compdef zohmirka
# Completions of zohmirka for zsh.

_zohmirka() {
    local -a names
    local command topic
";

const HELP_IS_CUT: &str = "    if (( CURRENT > 2 )) && [[ $words[2] == HELP ]]; then
        topic=$words[2]
        shift words
        (( CURRENT-- ))
    fi
";

/// The name is cut away but for its last word, as `_arguments` wants a word before the operands.
const OPERANDS: &str = "    [[ -n $topic ]] && return
    shift words
    (( CURRENT-- ))
    case $command in
";

const END: &str = "    esac
}

_zohmirka \"$@\"
";

pub fn zsh() -> String {
    let firsts = first_words();
    let described = firsts.iter().map(|first| (*first, summary(first)));
    let mut script = BEGINNING.to_string();
    script += &HELP_IS_CUT.replace("HELP", HELP);
    script += &names("    ", described);
    script += "    command=$words[2]\n";
    script.extend(firsts.iter().map(|first| second_word(first)));
    script += OPERANDS;
    script.extend(commands().map(command_case));
    script + END
}

/// Behind a word that begins names of two words, the second one.
fn second_word(first: &str) -> String {
    let mut seconds = under(first).peekable();
    if seconds.peek().is_none() {
        return String::new();
    }
    let described = seconds.map(|(command, second)| (second, command.summary.to_string()));
    let mut script = format!("    if [[ $command == {first} ]]; then\n");
    script += "        shift words\n        (( CURRENT-- ))\n";
    script += &names("        ", described);
    script + &format!("        command=\"{first} $words[2]\"\n    fi\n")
}

/// What a command does, or what may stand behind this word.
fn summary(first: &str) -> String {
    match COMMANDS.iter().find(|command| command.name == first) {
        Some(command) => command.summary.to_string(),
        None => under(first)
            .map(|(_, second)| second)
            .collect::<Vec<_>>()
            .join(", "),
    }
}

/// Offers names, each with what it stands for, where the first word is typed.
fn names<'a>(margin: &str, described: impl Iterator<Item = (&'a str, String)>) -> String {
    let mut script = format!("{margin}names=(\n");
    for (name, words) in described {
        let item = quoted(&format!("{name}:{}", escaped(&words)));
        script += &format!("{margin}    {item}\n");
    }
    script += &format!("{margin})\n{margin}if (( CURRENT == 2 )); then\n");
    script += &format!("{margin}    _describe command names\n{margin}    return\n");
    script + &format!("{margin}fi\n")
}

fn command_case(command: &Command) -> String {
    let mut case = format!("    {})\n        _arguments", quoted(command.name));
    let flags = command.flags().map(flag_form);
    let operands = command.operands.iter().enumerate().map(operand_form);
    for form in flags
        .chain(["--help[its page]".to_string()])
        .chain(operands)
    {
        case += &format!(" \\\n            {}", quoted(&form));
    }
    case + "\n        ;;\n"
}

fn flag_form(flag: &Flag) -> String {
    let sign = if flag.value.is_empty() || !flag.name.starts_with("--") {
        ""
    } else {
        "="
    };
    let option = format!("{}{sign}[{}]", flag.name, escaped(flag.words));
    match flag.value {
        "" => option,
        value => format!("{option}:{value}:{}", action(flag.choices)),
    }
}

fn operand_form((at, operand): (usize, &Operand)) -> String {
    let place = match operand.count {
        Count::One => format!("{}:", at + 1),
        Count::AtMostOne => format!("{}::", at + 1),
        Count::Some | Count::Any => "*:".to_string(),
    };
    format!(
        "{place}{}:{}",
        escaped(operand.name),
        action(operand.choices)
    )
}

fn action(choices: &[&str]) -> String {
    if choices.is_empty() {
        return "_files".to_string();
    }
    let words: Vec<String> = choices
        .iter()
        .map(|word| typed(word).replace(':', "\\:"))
        .collect();
    format!("({})", words.join(" "))
}

/// Text where zsh looks for colons and brackets.
fn escaped(words: &str) -> String {
    let sign = |letter: char| match letter {
        '\\' | ':' | '[' | ']' => format!("\\{letter}"),
        letter => letter.to_string(),
    };
    words.chars().map(sign).collect()
}
