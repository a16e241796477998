//! Sheets in words: which line turned a sheet back and why, what was found after the last line, what
//! each line says. Numbers and lines are the library's answers (`docs/SHEETS.md`); the words are not.

mod bounds;
mod explain;
mod frame;
mod line;
mod locate;
mod loose;
mod meaning;
mod order;
mod parts;
mod tidy;
mod whole;

#[cfg(test)]
mod tests;

pub use explain::explain;
pub use locate::{bad_line, line_of, without};
pub use tidy::{tidy, Tidied, BYTE_ORDER_MARK};

use crate::fault::Fault;
use line::Bad;
use loose::Loose;
use whole::Finding;
use zohmirka::Refusal;

/// What a sheet is read as.
#[derive(Clone, Copy, Debug, PartialEq, Eq)]
pub enum Kind {
    Request,
    Chain,
}

impl Kind {
    /// What the library says of the sheet: a request is planned, a chain judged.
    pub fn judge(self, sheet: &[u8]) -> Result<(), Refusal> {
        match self {
            Kind::Request => zohmirka::plan(sheet).map(|_| ()),
            Kind::Chain => zohmirka::judge(sheet),
        }
    }
}

/// The fault of a refused sheet in full: number and line, then the line and its part in words.
pub fn refused(name: &str, sheet: &[u8], kind: Kind, refusal: Refusal) -> Fault {
    if let Some(line) = bad_line(sheet, kind) {
        let shown = Bad::of(sheet, line, kind).shown(refusal);
        return Fault::No(format!("{name}:{line}: {refusal}{shown}"));
    }
    let findings = whole::findings(sheet, kind, refusal);
    let words: Vec<String> = findings.iter().map(Finding::with_lines).collect();
    Fault::No(format!("{name}: {refusal}\n  {}", words.join("\n  ")))
}

/// The same of a request sheet that was made of options.
pub fn refused_options(sheet: &[u8], refusal: Refusal) -> Fault {
    refused_parts("request", sheet, refusal)
}

/// The same of a request sheet that stands in no file: no line numbers, the part alone.
pub fn refused_parts(name: &str, sheet: &[u8], refusal: Refusal) -> Fault {
    let kind = Kind::Request;
    let words = match bad_line(sheet, kind) {
        Some(line) => Bad::of(sheet, line, kind).words(refusal),
        None => {
            let findings = whole::findings(sheet, kind, refusal).into_iter();
            let words: Vec<String> = findings.map(|finding| finding.words).collect();
            words.join("\n  ")
        }
    };
    Fault::No(format!("{name}: {refusal}\n  {words}"))
}

/// The fault of a line that is no `05` line where a cell is wanted; lines are counted from 1.
pub fn bad_cell(name: &str, number: usize, line: &[u8]) -> Fault {
    Loose::Cells.fault(&format!("{name}:{number}"), line, number == 1)
}
