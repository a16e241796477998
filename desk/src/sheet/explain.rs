//! A sheet line by line, with words in a second column.

use super::locate::{lines, without_end};
use super::loose::Loose;
use super::meaning::Meaning;
use super::parts::{bytes, part, Content, Part};
use super::{refused, Kind};
use crate::fault::Result;
use crate::wording::cut_to;
use std::fmt::Write;

/// No line is shown longer in the first column.
const WIDEST: usize = 40;

/// What kind of sheet it is, then each line with its words. A refused sheet is the fault that says why.
pub fn explain(name: &str, sheet: &[u8]) -> Result<String> {
    let first = lines(sheet).next().unwrap_or_default();
    if let Some(loose) = Loose::of(first) {
        let mut table = Table::new(sheet);
        table.heading(name, &loose.heading(sheet));
        table.loose(name, sheet, loose)?;
        return Ok(table.text);
    }
    let (head, cells) = sheet.split_at(before_cells(sheet));
    if Kind::Chain.judge(head).is_ok() {
        return chain(name, head, cells);
    }
    let kind = looks_like(head);
    let judged = match kind {
        Kind::Chain => head,
        Kind::Request => sheet,
    };
    if let Err(refusal) = kind.judge(judged) {
        return Err(refused(name, judged, kind, refusal));
    }
    let mut table = Table::new(sheet);
    table.heading(name, "a request sheet");
    table.taken(sheet, kind);
    Ok(table.text)
}

fn chain(name: &str, head: &[u8], cells: &[u8]) -> Result<String> {
    let mut table = Table::new(head);
    let mut heading = "a chain sheet".to_string();
    if Kind::Request.judge(head).is_ok() {
        heading += ", which is a request sheet too";
    }
    if !cells.is_empty() {
        heading += &format!(", then {}", Loose::Cells.heading(cells));
    }
    table.heading(name, &heading);
    table.taken(head, Kind::Chain);
    table.loose(name, cells, Loose::Cells)?;
    Ok(table.text)
}

/// Where the first `05` line begins, or the end.
fn before_cells(sheet: &[u8]) -> usize {
    let before = lines(sheet).take_while(|line| !line.starts_with(b"05"));
    before.map(<[u8]>::len).sum()
}

/// The kind that a sheet was meant for: only chains have `03` and `06` lines.
fn looks_like(sheet: &[u8]) -> Kind {
    if lines(sheet).any(|line| line.starts_with(b"03") || line.starts_with(b"06")) {
        return Kind::Chain;
    }
    Kind::Request
}

/// The two columns.
struct Table {
    text: String,
    width: usize,
    /// How many lines of the sheet were put into words.
    lines: usize,
}

impl Table {
    /// One for these lines and others like them.
    fn new(sheet: &[u8]) -> Table {
        let longest = lines(sheet).map(|line| without_end(line).len()).max();
        Table {
            text: String::new(),
            width: longest.unwrap_or(0).min(WIDEST),
            lines: 0,
        }
    }

    fn heading(&mut self, name: &str, heading: &str) {
        self.text += &format!("{name}: {heading}\n");
    }

    /// Lines that the library has taken.
    fn taken(&mut self, sheet: &[u8], kind: Kind) {
        let mut meaning = Meaning::new(kind, Content::read(sheet).window());
        for line in lines(sheet).map(without_end) {
            let part = bytes(line).and_then(|bytes| part(&bytes));
            let words = part.map(|part| meaning.words(&part));
            self.row(line, &words.unwrap_or_default());
        }
    }

    /// Lines outside a sheet, looked at one by one.
    fn loose(&mut self, name: &str, text: &[u8], loose: Loose) -> Result<()> {
        let mut meaning = Meaning::new(Kind::Chain, Vec::new());
        let mut ended = false;
        for line in lines(text) {
            let part = match loose.part(line) {
                Some(part) if !ended => part,
                _ => {
                    let place = format!("{name}:{}", self.lines + 1);
                    return Err(loose.fault(&place, line, self.lines == 0));
                }
            };
            ended = matches!(part, Part::Ended(..) | Part::Refused(_));
            self.row(without_end(line), &meaning.words(&part));
        }
        Ok(())
    }

    fn row(&mut self, line: &[u8], words: &str) {
        let shown = match line.len() {
            0..=WIDEST => cut_to(line, WIDEST),
            _ => cut_to(line, WIDEST - 2),
        };
        writeln!(self.text, "{shown:width$}  {words}", width = self.width)
            .expect("a string takes any text");
        self.lines += 1;
    }
}
