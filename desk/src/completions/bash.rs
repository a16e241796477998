//! The script for bash.
use super::{commands, first_words, quoted, typed, under, HELP};
use crate::table::Command;

const BEGINNING: &str = r#"# Completions of zohmirka for bash. Where nothing is offered, bash goes on with files.

# Offers the words that begin with what is typed; options only behind a -.
_zohmirka_offer() {
    local word
    for word; do
        if [[ $word == "$current"* && ( $word != -* || $current == -* ) ]]; then
            COMPREPLY+=("$word")
        fi
    done
    # A value that ends in a colon goes on.
    if [[ ${#COMPREPLY[@]} == 1 && ${COMPREPLY[0]} == *: ]]; then
        compopt -o nospace 2>/dev/null
    fi
}

_zohmirka() {
    local IFS=' ' current=${COMP_WORDS[COMP_CWORD]} before=${COMP_WORDS[COMP_CWORD-1]}
    COMPREPLY=()
    # Bash takes the sign of --option=VALUE for a word.
    if [[ $current == = ]]; then
        current=
    elif [[ $before == = ]]; then
        before=${COMP_WORDS[COMP_CWORD-2]}
    fi
    case "${COMP_WORDS[*]:1:COMP_CWORD-1} " in
"#;

const END: &str = "    esac
}

complete -o bashdefault -o default -F _zohmirka zohmirka
";

pub fn bash() -> String {
    let firsts = first_words();
    let mut cases = "    *' -- '*) ;;\n".to_string();
    cases += &name_case("", &[&["--help", "--version"], firsts.as_slice()].concat());
    cases += &name_case(HELP, &firsts);
    for first in firsts {
        let seconds: Vec<&str> = under(first).map(|(_, second)| second).collect();
        if !seconds.is_empty() {
            cases += &name_case(first, &seconds);
            cases += &name_case(&format!("{HELP} {first}"), &seconds);
        }
    }
    cases.extend(commands().map(command_case));
    format!("{BEGINNING}{cases}{END}")
}

/// Behind these words stands the name of a command, or a part of it.
fn name_case(words: &str, names: &[&str]) -> String {
    format!("    '{words} ') {} ;;\n", offer(names))
}

fn command_case(command: &Command) -> String {
    let flags = command.flags().map(|flag| flag.name).chain(["--help"]);
    let operands = command.operands.iter().flat_map(|operand| operand.choices);
    let words: Vec<&str> = flags.chain(operands.copied()).collect();
    let mut case = format!("    '{} '*)\n        case $before in\n", command.name);
    for flag in command.flags().filter(|flag| !flag.value.is_empty()) {
        case += &match flag.choices {
            [] => format!("        {}) ;;\n", flag.name),
            choices => format!("        {}) {} ;;\n", flag.name, offer(choices)),
        };
    }
    case + &format!(
        "        *) {} ;;\n        esac\n        ;;\n",
        offer(&words)
    )
}

/// The call that offers these words. They are inserted as they stand there, so as they are typed.
fn offer(words: &[&str]) -> String {
    let argument = |word: &&str| match typed(word) {
        typed if typed == **word => typed,
        typed => quoted(&typed),
    };
    let words: Vec<String> = words.iter().map(argument).collect();
    format!("_zohmirka_offer {}", words.join(" "))
}
