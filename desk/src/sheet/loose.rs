//! Lines that stand outside the sheets that the library judges: cells, and what `plan` and `run` write.

use super::frame::Frame;
use super::line::{malformed, TIDY};
use super::locate::{lines, without_end};
use super::parts::{bytes, length, part, Measure, Part};
use super::tidy::{tidy, BYTE_ORDER_MARK};
use super::Kind;
use crate::fault::Fault;
use crate::wording::{count, under};
use zohmirka::Refusal;

/// What a file of such lines holds.
#[derive(Clone, Copy, Debug, PartialEq, Eq)]
pub enum Loose {
    Cells,
    /// Firings, the end of a run, a refusal.
    Written,
}

impl Loose {
    /// What a file that begins with this line holds, where it is of such lines.
    pub fn of(first: &[u8]) -> Option<Loose> {
        match tidy(first).text.get(..2)? {
            b"05" => Some(Loose::Cells),
            b"10" | b"11" | b"1F" => Some(Loose::Written),
            _ => None,
        }
    }

    /// What these lines are in all.
    pub fn heading(self, text: &[u8]) -> String {
        match self {
            Loose::Cells => count(lines(text).count(), "cell"),
            Loose::Written if text.starts_with(b"1F") => "a refusal".to_string(),
            Loose::Written => "what a run wrote".to_string(),
        }
    }

    /// What a line says, where it is one of these, whole and with its LF.
    pub fn part(self, line: &[u8]) -> Option<Part> {
        let bytes = bytes(line.strip_suffix(b"\n")?)?;
        if length(&bytes, Measure::default()) != Some(bytes.len()) {
            return None;
        }
        let part = part(&bytes)?;
        let holds = match part {
            Part::Cell(_) => self == Loose::Cells,
            Part::Firing(..) | Part::Ended(0..=2, _) | Part::Refused(_) => self == Loose::Written,
            _ => false,
        };
        holds.then_some(part)
    }

    /// The fault of a line that is none of these. Where a cell is wanted the number is the library's.
    pub fn fault(self, place: &str, line: &[u8], first: bool) -> Fault {
        let shown = |refusal| under(without_end(line), &self.words(line, first, refusal));
        match self {
            Loose::Cells => {
                let refusal = refusal(line);
                Fault::No(format!("{place}: {refusal}{}", shown(refusal)))
            }
            Loose::Written => {
                let shown = shown(Refusal::Misplaced);
                Fault::Trouble(format!("{place}: no line that a run writes{shown}"))
            }
        }
    }

    fn words(self, line: &[u8], first: bool, refusal: Refusal) -> String {
        let text = without_end(line);
        let ended = line.ends_with(b"\n");
        if let Some(fault) = (Frame { text, ended, first }).fault() {
            let marked = !first && line.starts_with(BYTE_ORDER_MARK);
            let mends = !marked && self.part(&tidy(line).text).is_some();
            return fault + if mends { TIDY } else { "" };
        }
        let bytes = bytes(text).unwrap_or_default();
        let malformed = match (self, refusal) {
            (Loose::Cells, Refusal::Malformed) => malformed(&bytes, Measure::default()),
            _ => None,
        };
        malformed.unwrap_or_else(|| self.wanted().to_string())
    }

    fn wanted(self) -> &'static str {
        match self {
            Loose::Cells => "among cells `05` lines alone may stand",
            Loose::Written => "a run writes `10` lines, then one `11` or `1F`",
        }
    }
}

/// What the library answers of a line where a cell is wanted and there is none.
fn refusal(line: &[u8]) -> Refusal {
    let sheet = [b"010100000001\n020000\n0400\n", line].concat();
    let answer = Kind::Chain.judge(&sheet);
    answer.err().unwrap_or(Refusal::Misplaced)
}
