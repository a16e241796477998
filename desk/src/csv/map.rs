//! A map as it was read, or laid out of cells.

use super::axes::{self, Axes};
use super::cells::{stream, Cells, Row, Stream};
use super::dialect::Dialect;
use super::fault::Fault;
use super::grid::Grid;
use super::table::{table, Table};
use super::write::Writer;
use super::Asked;
use crate::wording::{count, grouped};

/// A map of two dimensions. Its rows and columns are counted from 0, labels apart.
pub struct Map {
    table: Table,
    axes: Axes,
    width: usize,
    slanted: bool,
    kind: Cells,
    stream: Stream,
}

/// The map that a file says, read as asked; where nothing is asked, only where one reading fits.
pub fn read(bytes: Vec<u8>, asked: &Asked) -> Result<Map, Fault> {
    let table = table(bytes, asked.delimiter, asked.decimal)?;
    let (axes, stream) = cells_of(&table, asked)?;
    let width = table.widest() - axes.fields();
    Ok(Map {
        table,
        axes,
        width,
        slanted: asked.slanted,
        kind: asked.cells,
        stream,
    })
}

fn cells_of(table: &Table, asked: &Asked) -> Result<(Axes, Stream), Fault> {
    let cells = if asked.slanted {
        told_apart(table, asked)
    } else {
        let even = table
            .expect_even()
            .and_then(|()| table.expect_last_column());
        even.and_then(|()| told_apart(table, asked))
    };
    cells.map_err(|fault| with_hint(fault, table, asked))
}

fn told_apart(table: &Table, asked: &Asked) -> Result<(Axes, Stream), Fault> {
    let may_be_empty = asked.slanted || asked.fill.is_some();
    let axes = match asked.axes {
        Some(axes) => axes,
        None => axes::found(table, may_be_empty)?,
    };
    let grid = Grid { table, axes };
    if grid.height() == 0 {
        return Err(Fault::of_file("labels, and no row of cells below them"));
    }
    if table.widest() == axes.fields() {
        let text = "labels, and no column of cells behind them";
        return Err(Fault::of_file(text));
    }
    Ok((axes, stream(grid, asked)?))
}

/// A fault, and the hint at `--slanted` where the map could be read so.
fn with_hint(mut fault: Fault, table: &Table, asked: &Asked) -> Fault {
    let slanted = Asked {
        slanted: true,
        ..asked.clone()
    };
    if !asked.slanted && told_apart(table, &slanted).is_ok() {
        fault.text += "; --slanted leaves empty cells at a row's ends outside the map";
    }
    fault
}

/// Cells as a table of so many columns, without labels.
fn written(stream: &Stream, width: usize, dialect: Dialect, kind: Cells) -> Vec<u8> {
    let mut writer = Writer::new(dialect);
    for row in 0..stream.rows.len() {
        for column in 0..width {
            let word = stream.word(row, column);
            let text = word.map(|word| dialect.shown(word, kind, None));
            writer.field(&text.unwrap_or_default());
        }
        writer.end_line();
    }
    writer.into_bytes()
}

impl Map {
    /// Cells that stood in no table, laid out in these rows without labels; what lies outside is empty.
    pub fn laid(
        rows: Vec<Row>,
        words: Vec<u32>,
        dialect: Dialect,
        kind: Cells,
    ) -> Result<Map, Fault> {
        let stream = Stream::of(rows, words);
        let ends = stream.rows.iter().map(|row| row.start + row.length);
        let width = ends.max().unwrap_or(0);
        let text = written(&stream, width, dialect, kind);
        let table = table(text, Some(dialect.delimiter), Some(dialect.decimal))?;
        let whole = Row {
            start: 0,
            length: width,
        };
        Ok(Map {
            table,
            axes: Axes::None,
            width,
            slanted: stream.rows.iter().any(|row| *row != whole),
            kind,
            stream,
        })
    }

    pub fn height(&self) -> usize {
        self.stream.rows.len()
    }

    /// How many columns there are: of a slanted map as many as the longest line has, empty fields too.
    pub fn width(&self) -> usize {
        self.width
    }

    /// Where the cells of each row lie; of a map that is not slanted, everywhere.
    pub fn rows(&self) -> &[Row] {
        &self.stream.rows
    }

    pub fn is_slanted(&self) -> bool {
        self.slanted
    }

    pub fn kind(&self) -> Cells {
        self.kind
    }

    /// The words of the cells in the order of the stream.
    pub fn cells(&self) -> &[u32] {
        &self.stream.words
    }

    /// The position of a cell in the stream, and none outside the map.
    pub fn position(&self, row: usize, column: usize) -> Option<usize> {
        self.stream.position(row, column)
    }

    /// The word of a cell, and none outside the map.
    pub fn word(&self, row: usize, column: usize) -> Option<u32> {
        self.stream.word(row, column)
    }

    /// The text of a cell as read, without the blanks around it.
    pub fn text(&self, row: usize, column: usize) -> &str {
        self.grid().text(row, column)
    }

    /// The labels of the columns, where there are any.
    pub fn top(&self) -> Option<Vec<&str>> {
        let grid = self.grid();
        (0..self.width).map(|column| grid.top(column)).collect()
    }

    /// The labels of the rows, where there are any.
    pub fn left(&self) -> Option<Vec<&str>> {
        let grid = self.grid();
        (0..self.height()).map(|row| grid.left(row)).collect()
    }

    pub fn dialect(&self) -> &Dialect {
        self.table.dialect()
    }

    /// How the file was read.
    pub fn taken(&self) -> String {
        let lengths = || self.stream.rows.iter().map(|row| row.length);
        let (least, most) = (lengths().min().unwrap_or(0), lengths().max().unwrap_or(0));
        let kind = if self.slanted { "slanted row" } else { "row" };
        let rows = count(self.height(), kind);
        let cells = if least < most {
            format!("{} to {}", grouped(least as u128), count(most, "cell"))
        } else {
            count(most, "cell")
        };
        let words = match self.kind {
            Cells::F32 => "",
            Cells::U32 => ", cells u32",
        };
        let (dialect, axes) = (self.dialect(), self.axes.name());
        format!("{rows} of {cells}, {dialect}, axes {axes}{words}")
    }

    pub(super) fn grid(&self) -> Grid<'_> {
        Grid {
            table: &self.table,
            axes: self.axes,
        }
    }
}
