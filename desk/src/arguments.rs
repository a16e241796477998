//! What stands behind a command's name, taken apart by the table.
use crate::fault::{trouble, Fault, Result};
use crate::table::{Command, Count};

#[derive(Clone, Debug)]
pub struct Arguments {
    pub operands: Vec<String>,
    options: Vec<(&'static str, String)>,
}

impl Arguments {
    pub fn parse(command: &'static Command, words: &[String]) -> Result<Arguments> {
        let mut taken = Arguments {
            operands: Vec::new(),
            options: Vec::new(),
        };
        let mut words = words.iter();
        let mut operands_only = false;
        while let Some(word) = words.next() {
            if operands_only || word == "-" || !word.starts_with('-') {
                taken.operands.push(word.clone());
            } else if word == "--" {
                operands_only = true;
            } else {
                taken.option(command, word, &mut words)?;
            }
        }
        taken.count(command)?;
        Ok(taken)
    }

    fn option<'a>(
        &mut self,
        command: &'static Command,
        word: &str,
        rest: &mut impl Iterator<Item = &'a String>,
    ) -> Result<()> {
        let (name, joined) = match word.split_once('=') {
            Some((name, value)) => (name, Some(value.to_string())),
            None => (word, None),
        };
        let hint = format!("`zohmirka help {}` lists the options", command.name);
        let Some(flag) = command.flag(name) else {
            return trouble(format!("{}: no option {name:?}; {hint}", command.name));
        };
        if self.value(flag.name).is_some() {
            return trouble(format!("{}: {name} stands twice", command.name));
        }
        let value = match (flag.value, joined) {
            ("", None) => String::new(),
            ("", Some(_)) => return trouble(format!("{}: {name} takes no value", command.name)),
            (_, Some(value)) => value,
            (called, None) => match rest.next() {
                Some(value) => value.clone(),
                None => return trouble(format!("{}: {name} needs its {called}", command.name)),
            },
        };
        self.options.push((flag.name, value));
        Ok(())
    }

    /// Whether there are as many operands as the command takes.
    fn count(&self, command: &Command) -> Result<()> {
        let needed = |count: Count| matches!(count, Count::One | Count::Some);
        let least = command
            .operands
            .iter()
            .filter(|operand| needed(operand.count))
            .count();
        let open = command
            .operands
            .iter()
            .any(|operand| matches!(operand.count, Count::Some | Count::Any));
        let most = if open {
            usize::MAX
        } else {
            command.operands.len()
        };
        if (least..=most).contains(&self.operands.len()) {
            return Ok(());
        }
        let much = if self.operands.len() < least {
            "something is missing"
        } else {
            "too much"
        };
        trouble(format!(
            "{}: {much}; it goes: zohmirka {}",
            command.name,
            command.usage()
        ))
    }

    pub fn value(&self, name: &str) -> Option<&str> {
        self.options
            .iter()
            .find(|(n, _)| *n == name)
            .map(|(_, value)| value.as_str())
    }

    pub fn has(&self, name: &str) -> bool {
        self.value(name).is_some()
    }

    /// Turns back options that would play no part, and says why.
    pub fn without(&self, names: &[&str], why: &str) -> Result<()> {
        match names.iter().find(|name| self.has(name)) {
            Some(name) => trouble(format!("{name} plays no part: {why}")),
            None => Ok(()),
        }
    }

    /// The value of an option that the command cannot do without.
    pub fn needed(&self, name: &str, example: &str) -> Result<&str> {
        self.value(name)
            .ok_or_else(|| Fault::Trouble(format!("{name} is missing, as in {name} {example}")))
    }

    /// The value of an option as one of some words.
    pub fn chosen<T: Copy>(&self, name: &str, choices: &[(&str, T)]) -> Result<Option<T>> {
        let Some(value) = self.value(name) else {
            return Ok(None);
        };
        match choices.iter().find(|(word, _)| *word == value) {
            Some((_, choice)) => Ok(Some(*choice)),
            None => {
                let words: Vec<&str> = choices.iter().map(|(word, _)| *word).collect();
                trouble(format!("{name} {value:?}: it may be {}", words.join(" ")))
            }
        }
    }

    /// The value of an option as a whole number.
    pub fn number(&self, name: &str) -> Result<Option<u64>> {
        let Some(value) = self.value(name) else {
            return Ok(None);
        };
        let digits = !value.is_empty() && value.bytes().all(|b| b.is_ascii_digit());
        match value.parse() {
            Ok(number) if digits => Ok(Some(number)),
            _ => trouble(format!("{name} {value:?}: a whole number is asked for")),
        }
    }
}

#[cfg(test)]
mod tests {
    use super::*;
    use crate::table::find;

    fn parse(line: &str) -> Result<Arguments> {
        let words: Vec<String> = line.split(' ').map(str::to_string).collect();
        let (command, name) = find(&words).expect("the line begins with a command");
        Arguments::parse(command, &words[name..])
    }

    fn text(line: &str) -> String {
        parse(line)
            .expect_err("the line is turned back")
            .text()
            .to_string()
    }

    #[test]
    fn options_stand_anywhere_with_a_space_or_a_sign() {
        let taken = parse("draw time --from=5 a.chain -o - --to 15").unwrap();
        assert_eq!(taken.operands, ["a.chain"]);
        assert_eq!(
            (taken.number("--from"), taken.number("--to")),
            (Ok(Some(5)), Ok(Some(15)))
        );
        assert_eq!((taken.value("-o"), taken.has("--csv")), (Some("-"), false));
        assert_eq!(parse("check -- -o - b").unwrap().operands, ["-o", "-", "b"]);
    }

    #[test]
    fn what_does_not_fit_is_named() {
        assert_eq!(
            text("cells a --from 5"),
            "cells: no option \"--from\"; `zohmirka help cells` lists the options"
        );
        assert_eq!(text("run a b --csv=1"), "run: --csv takes no value");
        assert_eq!(text("cells a -o"), "cells: -o needs its FILE");
        assert_eq!(text("cells a -o b -o c"), "cells: -o stands twice");
        assert_eq!(
            text("run a"),
            "run: something is missing; it goes: zohmirka run CHAIN MAP [OPTION..]"
        );
        assert_eq!(
            text("cells a b"),
            "cells: too much; it goes: zohmirka cells MAP [OPTION..]"
        );
        assert_eq!(
            text("check"),
            "check: something is missing; it goes: zohmirka check CHAIN.."
        );
    }

    #[test]
    fn values_are_words_or_numbers() {
        let taken = parse("draw time a --from +5").unwrap();
        assert_eq!(
            taken.number("--from").unwrap_err().text(),
            "--from \"+5\": a whole number is asked for"
        );
        let taken = parse("smooth a --rim half").unwrap();
        let choices = [("empty", 0), ("keep", 1)];
        assert_eq!(
            taken.chosen("--rim", &choices).unwrap_err().text(),
            "--rim \"half\": it may be empty keep"
        );
    }
}
