//! What is wrong with a line that was turned back, in words.

use super::frame::Frame;
use super::locate::{good, lines, without_end};
use super::order::misplaced;
use super::parts::{bytes, half, length, named, part, Content, Grid, Measure, Part};
use super::tidy::tidy;
use super::Kind;
use crate::wording::{count, dimension, grouped, under};
use zohmirka::Refusal;

pub const TIDY: &str = "; `zohmirka tidy` mends it";

/// A line that was turned back.
pub struct Bad<'a> {
    /// The lines before it, which are good.
    before: &'a [u8],
    frame: Frame<'a>,
    kind: Kind,
}

impl Bad<'_> {
    /// The line of this number, counted from 1.
    pub fn of(sheet: &[u8], number: usize, kind: Kind) -> Bad<'_> {
        let start = lines(sheet).take(number - 1).map(<[u8]>::len).sum();
        let (before, rest) = sheet.split_at(start);
        let line = lines(rest).next().unwrap_or_default();
        let frame = Frame {
            text: without_end(line),
            ended: line.ends_with(b"\n"),
            first: number == 1,
        };
        Bad {
            before,
            frame,
            kind,
        }
    }

    /// The line and the words below it.
    pub fn shown(&self, refusal: Refusal) -> String {
        under(self.frame.text, &self.words(refusal))
    }

    pub fn words(&self, refusal: Refusal) -> String {
        if let Some(fault) = self.frame.fault() {
            let hint = if self.tidy_mends() { TIDY } else { "" };
            return fault + hint;
        }
        let bytes = bytes(self.frame.text).unwrap_or_default();
        let content = Content::read(self.before);
        let words = match refusal {
            Refusal::Malformed => malformed(&bytes, content.measure()),
            Refusal::Misplaced => bytes
                .first()
                .map(|&first| misplaced(first, self.before, self.kind)),
            Refusal::BadGrid => grid(&bytes),
            Refusal::BadCount => Some("the 33rd reference; a window has at most 32".to_string()),
            Refusal::BadName => name(&bytes, content.measure().dims),
            Refusal::BadRows => rows(&bytes),
            _ => None,
        };
        words.unwrap_or_else(|| "the line is turned back".to_string())
    }

    /// Whether the library takes the line as `tidy` mends it.
    fn tidy_mends(&self) -> bool {
        let end = if self.frame.ended { &b"\n"[..] } else { b"" };
        let beginning = [self.before, self.frame.text, end].concat();
        good(&tidy(&beginning).text, self.kind)
    }
}

/// Words for whole bytes that are of no kind or of a wrong length.
pub fn malformed(bytes: &[u8], measure: Measure) -> Option<String> {
    const KERNELS: &str = "kernels are 00 raw, 01 difference, 02 scaled and 03 blend";
    let first = bytes.first()?;
    Some(match (first, bytes.get(1)) {
        (0x10 | 0x11, _) => format!("`{first:02X}` lines are written by `run`, never read"),
        (0x1F, _) => "`1F` lines are written of a refusal, never read".to_string(),
        (0 | 10.., _) => format!("no line begins with {first:02X}; they begin with 01 to 09"),
        (1, None) => "1 byte; an `01` line has its dimension count behind the first".to_string(),
        (4, None) => format!("1 byte; an `04` line has its kernel behind the first; {KERNELS}"),
        (4, Some(kernel @ 4..)) => format!("kernel {kernel:02X}; {KERNELS}"),
        (9, _) if bytes.len() < 3 => format!(
            "{}; an `09` line has its row count (2 bytes) behind the first",
            count(bytes.len(), "byte")
        ),
        _ => {
            let asked = length(bytes, measure)?;
            let have = count(bytes.len(), "byte");
            format!("{have}; {} has {asked}", of_a_length(bytes, measure)?)
        }
    })
}

/// A line and what sets its length.
fn of_a_length(bytes: &[u8], measure: Measure) -> Option<String> {
    let said = match (bytes.first()?, bytes.get(1)) {
        (1, Some(&dims)) => format!(" of {}", count(dims as usize, "dimension")),
        (2 | 8, _) => format!(" in {}", count(measure.dims, "dimension")),
        (4, Some(0)) => " of raw".to_string(),
        (4, Some(1)) => " of difference".to_string(),
        (4, Some(2)) => " of scaled and its factor".to_string(),
        (4, Some(3)) => " of blend, a and b".to_string(),
        (6, _) => format!(" of {}", count(measure.references, "reference")),
        (9, _) => format!(" of {}", count(half(bytes.get(1..3)?) as usize, "row")),
        _ => String::new(),
    };
    Some(format!("an `{:02X}` line{said}", bytes[0]))
}

/// Words for an `01` line that is turned back by 3.
fn grid(bytes: &[u8]) -> Option<String> {
    let said = *bytes.get(1)?;
    if !(1..=4).contains(&said) {
        return Some(format!("{said} dimensions; a grid has 1 to 4"));
    }
    let Part::Grid(Grid::Rectangle(sizes)) = part(bytes)? else {
        return None;
    };
    if let Some(empty) = sizes.iter().position(|&size| size == 0) {
        let dimension = dimension(empty, sizes.len());
        return Some(format!("{dimension}: the size is 0; a size is 1 or more"));
    }
    let factors: Vec<String> = sizes.iter().map(|&size| grouped(size as u128)).collect();
    let cells = sizes
        .iter()
        .map(|&size| size as u128)
        .fold(1, u128::saturating_mul);
    let product = match &factors[..] {
        [_] => grouped(cells),
        _ => format!("{} = {}", factors.join(" x "), grouped(cells)),
    };
    Some(format!("{product} cells; a grid has at most 1,048,576"))
}

/// Words for an `07` line that is turned back by 13.
fn name(bytes: &[u8], dims: usize) -> Option<String> {
    let name = *bytes.get(1)?;
    Some(match (1..=4).find(|&dims| named(name, dims).is_some()) {
        Some(asked) => format!(
            "window {name:02X} has {}, and the grid {dims}",
            count(asked, "dimension")
        ),
        None => format!("no window is named {name:02X}; names are 01 to 05"),
    })
}

/// Words for an `09` line that is turned back by 16.
fn rows(bytes: &[u8]) -> Option<String> {
    let said = half(bytes.get(1..3)?);
    if !(1..=512).contains(&said) {
        let rows = count(said as usize, "row");
        return Some(format!("{rows}; a skewed grid has 1 to 512"));
    }
    let Part::Grid(Grid::Rows(rows)) = part(bytes)? else {
        return None;
    };
    rows.iter().enumerate().find_map(|(row, &(start, length))| {
        if start > 4_095 {
            let start = grouped(start as u128);
            return Some(format!(
                "row {row}: the start is {start}; a start is 0 to 4,095"
            ));
        }
        if !(1..=1_024).contains(&length) {
            let length = grouped(length as u128);
            return Some(format!(
                "row {row}: the length is {length}; a length is 1 to 1,024"
            ));
        }
        None
    })
}
