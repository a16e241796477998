//! What is wrong with the characters of a line.

use super::parts::is_digit;
use super::tidy::BYTE_ORDER_MARK;
use crate::wording::count;

/// A line as it stands in a sheet.
#[derive(Clone, Copy)]
pub struct Frame<'a> {
    /// The line without its LF.
    pub text: &'a [u8],
    /// Whether it has its LF.
    pub ended: bool,
    /// Whether it is the first line.
    pub first: bool,
}

const DIGITS: &str = "digits are 0-9 and A-F";

impl Frame<'_> {
    /// Words for what is wrong, none where the line is whole bytes and has its LF.
    pub fn fault(&self) -> Option<String> {
        let text = self.text;
        if self.first && is_wide(text) {
            return Some("UTF-16 text; a sheet is plain text of one byte a character".to_string());
        }
        if self.first && text.starts_with(BYTE_ORDER_MARK) {
            return Some("a byte order mark stands before the first digit".to_string());
        }
        if let Some(at) = text.iter().position(|&c| !is_digit(c)) {
            return Some(format!("column {}: {}", at + 1, character(&text[at..])));
        }
        if !self.ended {
            return Some("the last line lacks its LF".to_string());
        }
        if text.is_empty() {
            return Some("an empty line; a sheet has none".to_string());
        }
        if text.len() % 2 == 1 {
            return Some(format!("{}; a byte has two", count(text.len(), "digit")));
        }
        None
    }
}

/// Whether text looks like UTF-16: its mark in either byte order, or every other byte of the first two
/// characters 0.
fn is_wide(text: &[u8]) -> bool {
    text.starts_with(b"\xFF\xFE")
        || text.starts_with(b"\xFE\xFF")
        || matches!(text, [0, a, 0, b, ..] | [a, 0, b, 0, ..] if *a != 0 && *b != 0)
}

/// Words for a character that is no digit and what stands behind it.
fn character(rest: &[u8]) -> String {
    let behind = rest.trim_ascii_start();
    match rest[0] {
        b'\r' if rest.len() == 1 => "CR LF; a line ends with LF alone".to_string(),
        b' ' | b'\t' | b'\r' if behind.is_empty() => "spaces at the end of the line".to_string(),
        _ if is_comment(behind) => "a sheet has no comments".to_string(),
        b' ' | b'\t' => "a space; a line is digits alone".to_string(),
        lower @ b'a'..=b'f' => format!("lowercase '{}'; {DIGITS}", lower as char),
        other @ b'!'..=b'~' => format!("'{}' is no digit; {DIGITS}", other as char),
        other => format!("byte {other:02X} is no digit; {DIGITS}"),
    }
}

fn is_comment(text: &[u8]) -> bool {
    [&b"#"[..], b"//", b"--"]
        .iter()
        .any(|sign| text.starts_with(sign))
}
