//! Messages in full, worked out from `docs/SHEETS.md`.

mod explained;
mod lines;
mod whole;

use super::*;

const GRID: &str = "01020000000400000005";

fn sheet(lines: &[&str]) -> Vec<u8> {
    lines
        .iter()
        .flat_map(|line| [line, "\n"].concat().into_bytes())
        .collect()
}

/// The message of a sheet named `a` that is refused.
fn message(kind: Kind, sheet: &[u8]) -> String {
    let refusal = kind.judge(sheet).expect_err("a refused sheet");
    refused("a", sheet, kind, refusal).text().to_string()
}

#[track_caller]
fn says(kind: Kind, lines: &[&str], message_lines: &[&str]) {
    assert_eq!(message(kind, &sheet(lines)), message_lines.join("\n"));
}

#[track_caller]
fn request_says(lines: &[&str], message_lines: &[&str]) {
    says(Kind::Request, lines, message_lines);
}

#[track_caller]
fn chain_says(lines: &[&str], message_lines: &[&str]) {
    says(Kind::Chain, lines, message_lines);
}

#[test]
fn the_examples_of_the_request() {
    let lowercase = sheet(&[GRID, "0200000000", "02ffff0000", "0400"]);
    let fault = refused("a.request", &lowercase, Kind::Request, Refusal::Malformed);
    let said = "a.request:3: refused by 1: a malformed line
  02ffff0000
  column 3: lowercase 'f'; digits are 0-9 and A-F; `zohmirka tidy` mends it";
    assert_eq!(fault, Fault::No(said.to_string()));

    let equal = sheet(&[GRID, "0200000001", "0200000000", "0200000001", "0400"]);
    let fault = refused("a.request", &equal, Kind::Request, Refusal::EqualOffsets);
    let said = "a.request: refused by 5: two equal offsets\n  lines 2 and 4: (0,1)";
    assert_eq!(fault, Fault::No(said.to_string()));

    let fault = refused_options(&equal, Refusal::EqualOffsets);
    let said = "request: refused by 5: two equal offsets\n  (0,1)";
    assert_eq!(fault, Fault::No(said.to_string()));
}
