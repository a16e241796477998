//! Faults of a file, and its texts in them.

use std::fmt;

/// What is wrong with a CSV file, and where: the line of the file and the field on it, counted from 1.
#[derive(Clone, Debug, PartialEq, Eq)]
pub struct Fault {
    pub line: usize,
    pub field: Option<usize>,
    pub text: String,
}

impl Fault {
    pub(crate) fn of_line(line: usize, text: impl Into<String>) -> Fault {
        Fault {
            line,
            field: None,
            text: text.into(),
        }
    }

    /// A fault of the file as a whole, or of what was asked.
    pub(crate) fn of_file(text: impl Into<String>) -> Fault {
        Fault::of_line(1, text)
    }
}

impl fmt::Display for Fault {
    fn fmt(&self, out: &mut fmt::Formatter) -> fmt::Result {
        write!(out, "{}:", self.line)?;
        if let Some(field) = self.field {
            write!(out, "{field}:")?;
        }
        write!(out, " {}", self.text)
    }
}

/// A text of the file for a message: in quotes, cut where it is long, control characters escaped.
pub(crate) fn excerpt(text: &str) -> String {
    const LONGEST: usize = 60;
    let mut excerpt = String::from("\"");
    for character in text.chars().take(LONGEST) {
        if character.is_control() {
            excerpt.extend(character.escape_default());
        } else {
            excerpt.push(character);
        }
    }
    excerpt.push('"');
    if text.chars().nth(LONGEST).is_some() {
        excerpt.push_str("..");
    }
    excerpt
}

#[cfg(test)]
mod tests {
    use super::*;

    #[test]
    fn shown_with_line_and_field() {
        let mut fault = Fault::of_line(18, "empty cell");
        assert_eq!(fault.to_string(), "18: empty cell");
        fault.field = Some(13);
        assert_eq!(fault.to_string(), "18:13: empty cell");
    }

    #[test]
    fn excerpts_are_short_and_on_one_line() {
        assert_eq!(excerpt("load\\rpm"), "\"load\\rpm\"");
        assert_eq!(excerpt("a\nb\u{1b}"), "\"a\\nb\\u{1b}\"");
        let sixty = "é".repeat(60);
        assert_eq!(excerpt(&sixty), format!("\"{sixty}\""));
        assert_eq!(excerpt(&"é".repeat(61)), format!("\"{sixty}\".."));
    }
}
