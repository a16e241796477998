//! Where the cells of a map lie in its table, and what they are called.

use super::axes::Axes;
use super::fault::{excerpt, Fault};
use super::table::Table;

/// A table whose labels are told from its cells. Rows and columns of cells are counted from 0.
#[derive(Clone, Copy)]
pub(super) struct Grid<'a> {
    pub table: &'a Table,
    pub axes: Axes,
}

impl<'a> Grid<'a> {
    pub fn height(self) -> usize {
        self.table.height() - self.axes.lines()
    }

    /// How many fields for cells a row has.
    pub fn length(self, row: usize) -> usize {
        let fields = self.table.width(row + self.axes.lines());
        fields.saturating_sub(self.axes.fields())
    }

    pub fn text(self, row: usize, column: usize) -> &'a str {
        let line = row.saturating_add(self.axes.lines());
        let field = column.saturating_add(self.axes.fields());
        self.table.field(line, field)
    }

    pub fn top(self, column: usize) -> Option<&'a str> {
        (self.axes.lines() == 1).then(|| self.table.field(0, column + self.axes.fields()))
    }

    pub fn left(self, row: usize) -> Option<&'a str> {
        (self.axes.fields() == 1).then(|| self.table.field(row + self.axes.lines(), 0))
    }

    /// A fault of a cell: what is wrong, the cell's row and column, and advice.
    pub fn fault(self, row: usize, column: usize, wrong: &str, advice: &str) -> Fault {
        let text = format!(
            "{wrong} ({}, column {}){advice}",
            self.row_name(row),
            name(self.top(column), column)
        );
        self.table
            .fault(row + self.axes.lines(), column + self.axes.fields(), text)
    }

    /// A fault of a whole row.
    pub fn row_fault(self, row: usize, wrong: &str) -> Fault {
        let text = format!("{wrong} ({})", self.row_name(row));
        Fault::of_line(self.table.line_of(row + self.axes.lines(), 0), text)
    }

    fn row_name(self, row: usize) -> String {
        format!("row {}", name(self.left(row), row))
    }
}

/// A row or column by its label, or else by its number, counted from 1.
fn name(label: Option<&str>, place: usize) -> String {
    label.map_or_else(|| (place + 1).to_string(), excerpt)
}
