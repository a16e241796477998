//! What may stand behind a good beginning of a sheet, asked of the library with one line of each kind.

use super::locate::{good, lines};
use super::parts::{Content, Measure};
use super::Kind;
use crate::wording::{count, listed};

/// The kinds of line that may stand behind a good beginning, in the order of a sheet.
fn next(before: &[u8], kind: Kind) -> Vec<String> {
    let may_stand = |line: &String| good(&[before, line.as_bytes(), b"\n"].concat(), kind);
    let one_of_each = examples(Content::read(before).measure());
    let stand = one_of_each.into_iter().filter(may_stand);
    stand.map(|line| format!("`{}`", &line[..2])).collect()
}

/// A line of each kind that is good wherever its kind may stand.
fn examples(measure: Measure) -> Vec<String> {
    let Measure { dims, references } = measure;
    let filters: String = (0..references).map(|k| format!("{k:02X}")).collect();
    vec![
        "010100000001".to_string(),
        "09000100000001".to_string(),
        format!("02{}", "0000".repeat(dims)),
        (if dims == 3 { "0704" } else { "0701" }).to_string(),
        format!("08{}", "00".repeat(8 * dims)),
        "0300000000".to_string(),
        format!("06{filters}"),
        "0400".to_string(),
    ]
}

/// Words for a line of this first byte that may not stand behind the beginning.
pub fn misplaced(first: u8, before: &[u8], kind: Kind) -> String {
    let may = match next(before, kind) {
        none if none.is_empty() => "nothing may".to_string(),
        some => format!("{} may", listed(&some, "or")),
    };
    let words = format!(
        "an `{first:02X}` line may not stand {}; {may}",
        place(before)
    );
    with_reason(words, first, before, kind)
}

/// Words for a sheet of good lines that ends before its `04`.
pub fn unfinished(sheet: &[u8], kind: Kind) -> String {
    let missing = match sheet {
        [] => "the sheet is empty",
        _ => "the `04` line is missing",
    };
    let may = listed(&next(sheet, kind), "or");
    let words = format!("{missing}; {} may stand {may}", place(sheet));
    with_reason(words, 4, sheet, kind)
}

fn place(before: &[u8]) -> String {
    match lines(before).enumerate().last() {
        Some((at, line)) => {
            let first = String::from_utf8_lossy(&line[..line.len().min(2)]);
            format!("behind the `{first}` of line {}", at + 1)
        }
        None => "on the first line".to_string(),
    }
}

/// Adds why a line of this first byte may not stand there, where more can be said than what may.
fn with_reason(words: String, first: u8, before: &[u8], kind: Kind) -> String {
    let content = Content::read(before);
    let reason = match (first, kind) {
        (2, Kind::Request) if content.name.is_some() => {
            Some("the `07` stands for all `02` lines".to_string())
        }
        (5, Kind::Request) => Some("cells are no part of a request sheet".to_string()),
        (5, Kind::Chain) => Some("cells are no part of a chain sheet".to_string()),
        (3 | 6, Kind::Request) => Some(format!("`{first:02X}` lines stand in chain sheets")),
        (7, Kind::Chain) => Some("`07` lines stand in request sheets".to_string()),
        (3 | 4 | 6, Kind::Chain) => fifos(&content),
        _ => None,
    };
    match reason {
        Some(reason) => format!("{words}; {reason}"),
        None => words,
    }
}

fn fifos(content: &Content) -> Option<String> {
    let references = content.offsets.len();
    let asked = references.checked_sub(1)?;
    Some(format!(
        "of {} a chain sheet has {asked} `03`, and {} stood",
        count(references, "reference"),
        content.capacities.len()
    ))
}
