//! The words of a map's cells, in the order of the stream.

use super::fault::{excerpt, Fault};
use super::grid::Grid;
use super::number::{number, whole};
use super::Asked;

/// What a cell's field says.
#[derive(Clone, Copy, Debug, Default, PartialEq, Eq)]
pub enum Cells {
    /// A number, rounded into an f32.
    #[default]
    F32,
    /// The word itself, as a decimal integer.
    U32,
}

impl Cells {
    /// The word of a text with a decimal point, or what is wrong with it.
    pub fn word(self, text: &str) -> Result<u32, String> {
        self.word_of_field(text, b'.')
    }

    /// What a word stands for.
    pub fn value(self, word: u32) -> f32 {
        match self {
            Cells::F32 => f32::from_bits(word),
            Cells::U32 => word as f32,
        }
    }

    fn word_of_field(self, text: &str, decimal: u8) -> Result<u32, String> {
        let wrong = |what: &str| Err(format!("{} is {what}", excerpt(text)));
        match self {
            Cells::F32 => match number::<f32>(text, decimal) {
                Some(value) if value.is_finite() => Ok(value.to_bits()),
                Some(_) => wrong("too large for an f32"),
                None => wrong("not a number"),
            },
            Cells::U32 => match whole(text) {
                Some(word) => Ok(word),
                None => wrong("not a whole number from 0 to 4294967295"),
            },
        }
    }
}

/// Where the cells of a row lie: the first column and how many there are.
#[derive(Clone, Copy, Debug, PartialEq, Eq)]
pub struct Row {
    pub start: usize,
    pub length: usize,
}

/// The cells of a map, row by row.
#[derive(Default)]
pub(super) struct Stream {
    pub rows: Vec<Row>,
    /// The position of each row's first cell in the stream.
    pub firsts: Vec<usize>,
    pub words: Vec<u32>,
}

impl Stream {
    /// The words of these rows, as many as they have cells.
    pub fn of(rows: Vec<Row>, words: Vec<u32>) -> Stream {
        let mut next = 0;
        let first = |row: &Row| {
            next += row.length;
            next - row.length
        };
        let firsts = rows.iter().map(first).collect();
        Stream {
            rows,
            firsts,
            words,
        }
    }

    pub fn word(&self, row: usize, column: usize) -> Option<u32> {
        let position = self.position(row, column)?;
        Some(self.words[position])
    }

    pub fn position(&self, row: usize, column: usize) -> Option<usize> {
        let cells = self.rows.get(row)?;
        let place = column.checked_sub(cells.start)?;
        (place < cells.length).then(|| self.firsts[row] + place)
    }
}

pub(super) fn stream(grid: Grid, asked: &Asked) -> Result<Stream, Fault> {
    let mut stream = Stream::default();
    for row in 0..grid.height() {
        let cells = if asked.slanted {
            slanted_row(grid, row)?
        } else {
            Row {
                start: 0,
                length: grid.length(row),
            }
        };
        stream.rows.push(cells);
        stream.firsts.push(stream.words.len());
        for column in cells.start..cells.start + cells.length {
            stream.words.push(word(grid, row, column, asked)?);
        }
    }
    Ok(stream)
}

/// The row from its first to its last field that is not empty.
fn slanted_row(grid: Grid, row: usize) -> Result<Row, Fault> {
    let holds = |column: &usize| !grid.text(row, *column).is_empty();
    let mut columns = 0..grid.length(row);
    let start = columns.find(holds);
    let Some(start) = start else {
        return Err(grid.row_fault(row, "a row without a cell"));
    };
    let last = columns.rfind(holds).unwrap_or(start);
    Ok(Row {
        start,
        length: last + 1 - start,
    })
}

fn word(grid: Grid, row: usize, column: usize, asked: &Asked) -> Result<u32, Fault> {
    let text = grid.text(row, column);
    if text.is_empty() {
        let advice = "; --fill VALUE puts a number there";
        let empty = || grid.fault(row, column, "empty cell", advice);
        return asked.fill.ok_or_else(empty);
    }
    let dialect = grid.table.dialect();
    let read = |decimal| asked.cells.word_of_field(text, decimal);
    read(dialect.decimal).map_err(|wrong| {
        let other = if dialect.decimal == b'.' { b',' } else { b'.' };
        let advice = if dialect.delimiter != b',' && read(other).is_ok() {
            format!("; --decimal {} reads it", char::from(other))
        } else {
            String::new()
        };
        grid.fault(row, column, &wrong, &advice)
    })
}
