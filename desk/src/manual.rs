//! The manual page, in the language of roff with its man macros, from the table of commands.
use crate::table::{Command, Flag, ABOUT, COMMANDS, STATUS};

const SYNOPSIS: &str = "\
\\fBzohmirka\\fR \\fICOMMAND\\fR [\\fIOPERAND\\fR..] [\\fIOPTION\\fR..]
.br
\\fBzohmirka\\fR \\fB\\-\\-help\\fR | \\fB\\-\\-version\\fR
";

/// The page for section 1 of the manual. Names of options are not cut at a line's end.
pub fn manual() -> String {
    let version = escaped(env!("CARGO_PKG_VERSION"));
    let mut page = format!(".TH ZOHMIRKA 1 \"\" \"zohmirka {version}\"\n.nh\n.ad l\n");
    page += ".SH NAME\nzohmirka \\- plan reuse chains, and smooth maps with them\n";
    page += &format!(".SH SYNOPSIS\n{SYNOPSIS}");
    page += &format!(".SH DESCRIPTION\n{}", text(ABOUT));
    page += ".SH COMMANDS\n";
    page.extend(COMMANDS.iter().map(command_entry));
    page += ".SH OPTIONS\n";
    page.extend(distinct_flags().into_iter().map(flag_entry));
    page += &format!(".SH \"EXIT STATUS\"\n{}", text(STATUS));
    page
}

fn command_entry(command: &Command) -> String {
    let mut entry = format!(".SS {}\n", argument(&command.usage()));
    entry += &text(&sentence(command.summary));
    if !command.details.is_empty() {
        entry += &format!(".PP\n{}", text(command.details));
    }
    let names: Vec<&str> = command.flags().map(|flag| flag.name).collect();
    if !names.is_empty() {
        entry += &format!(".PP\nOptions: {}\n", escaped(&names.join(", ")));
    }
    if !command.examples.is_empty() {
        entry += &format!(
            ".PP\n.RS\n.nf\n{}.fi\n.RE\n",
            text(&command.examples.join("\n"))
        );
    }
    entry
}

/// Each option once, in the order of the commands.
fn distinct_flags() -> Vec<&'static Flag> {
    let mut flags: Vec<&Flag> = Vec::new();
    for flag in COMMANDS.iter().flat_map(Command::flags) {
        if !flags.iter().any(|other| same(other, flag)) {
            flags.push(flag);
        }
    }
    flags
}

fn same(one: &Flag, other: &Flag) -> bool {
    (one.name, one.value, one.words) == (other.name, other.value, other.words)
}

fn flag_entry(flag: &Flag) -> String {
    let mut entry = format!(".TP\n\\fB{}\\fR", escaped(flag.name));
    if !flag.value.is_empty() {
        entry += &format!(" \\fI{}\\fR", escaped(flag.value));
    }
    entry + "\n" + &text(flag.words)
}

/// A summary as a sentence.
fn sentence(summary: &str) -> String {
    let mut letters = summary.chars();
    let first: String = letters
        .next()
        .into_iter()
        .flat_map(char::to_uppercase)
        .collect();
    first + letters.as_str() + "."
}

/// Lines of text, none of which is taken for a request.
fn text(lines: &str) -> String {
    lines.lines().map(|line| text_line(line) + "\n").collect()
}

fn text_line(line: &str) -> String {
    match line.chars().next() {
        None => ".PP".to_string(),
        Some('.' | '\'') => format!("\\&{}", escaped(line)),
        Some(_) => escaped(line),
    }
}

/// One argument of a macro.
fn argument(words: &str) -> String {
    format!("\"{}\"", escaped(words))
}

/// Signs that roff would take for something else, or print as others than a shell knows.
fn escaped(words: &str) -> String {
    let sign = |letter: char| match letter {
        '\\' => "\\(rs".to_string(),
        '-' => "\\-".to_string(),
        '"' => "\\(dq".to_string(),
        '\'' => "\\(aq".to_string(),
        '`' => "\\(ga".to_string(),
        '^' => "\\(ha".to_string(),
        '~' => "\\(ti".to_string(),
        letter => letter.to_string(),
    };
    words.chars().map(sign).collect()
}

#[cfg(test)]
mod tests {
    use super::*;
    use std::io::Write;
    use std::process::{Output, Stdio};

    /// What groff makes of a page; None where it is not at hand.
    fn groff(page: &str, words: &[&str]) -> Option<Output> {
        let mut groff = std::process::Command::new("groff");
        groff.args(["-man", "-ww"]).args(words);
        groff
            .stdin(Stdio::piped())
            .stdout(Stdio::piped())
            .stderr(Stdio::piped());
        let mut child = groff.spawn().ok()?;
        let (mut input, page) = (child.stdin.take()?, page.to_string());
        let written = std::thread::spawn(move || input.write_all(page.as_bytes()));
        let output = child.wait_with_output().expect("groff ends");
        written
            .join()
            .expect("writing does not panic")
            .expect("groff reads to the end");
        Some(output)
    }

    #[test]
    fn groff_has_nothing_to_say() {
        let Some(output) = groff(&manual(), &["-z"]) else {
            return;
        };
        assert_eq!(String::from_utf8_lossy(&output.stderr), "");
        assert!(output.status.success());
    }

    #[test]
    fn printed_it_has_every_command_option_and_example() {
        let Some(output) = groff(&manual(), &["-Tascii", "-P-cbou", "-rLL=200n"]) else {
            return;
        };
        let printed = String::from_utf8_lossy(&output.stdout);
        let has = |line: &str| printed.lines().any(|other| other.trim() == line);
        let begins = |words: &str| printed.lines().any(|line| line.trim().starts_with(words));
        for command in COMMANDS {
            assert!(has(&command.usage()), "{}", command.usage());
            for example in command.examples {
                assert!(has(example), "{example}");
            }
            for flag in command.flags() {
                let title = format!("{} {}", flag.name, flag.value);
                assert!(begins(title.trim()), "{title}");
            }
        }
    }

    #[test]
    fn each_option_has_one_entry() {
        let page = manual();
        for flag in COMMANDS.iter().flat_map(Command::flags) {
            let title = format!(".TP\n\\fB{}\\fR", escaped(flag.name));
            assert_eq!(page.matches(&title).count(), 1, "{}", flag.name);
        }
    }

    #[test]
    fn no_text_is_taken_for_a_request() {
        assert_eq!(text(".x\n'y\n\n a.b"), "\\&.x\n\\&\\(aqy\n.PP\n a.b\n");
        assert_eq!(
            escaped("-o \"a\\b\" `c`"),
            "\\-o \\(dqa\\(rsb\\(dq \\(gac\\(ga"
        );
        assert_eq!(argument("run \"a\""), "\"run \\(dqa\\(dq\"");
        assert_eq!(sentence("a map"), "A map.");
    }

    #[test]
    fn every_line_is_text_or_a_known_request() {
        let known = [
            ".TH ", ".SH ", ".SS ", ".TP", ".PP", ".RS", ".RE", ".nf", ".fi", ".nh", ".ad l", ".br",
        ];
        for line in manual().lines() {
            let request = line.starts_with('.') || line.starts_with('\'');
            assert_eq!(
                request,
                known.iter().any(|name| line.starts_with(name)),
                "{line}"
            );
        }
    }
}
