//! The iterations of a grid of rows.
use crate::geometry::Stretch;
use crate::grid::Rows;
use crate::types::{Bounds, Window};
use std::ops::Range;

/// The columns of the iterations of row `row`: those from which every reference stays inside. None where a reference leaves the rows.
pub fn columns(rows: &Rows, window: &Window, row: i64) -> Range<i64> {
    let mut columns = i64::MIN..i64::MAX;
    for k in 0..window.count as usize {
        let read = row + entry(window, k, 0);
        if read < 0 || read >= rows.count as i64 {
            return 0..0;
        }
        let read = rows.rows[read as usize];
        let start = read.start as i64 - entry(window, k, 1);
        columns.start = columns.start.max(start);
        columns.end = columns.end.min(start + read.length as i64);
    }
    columns
}

/// Whether there is an iteration.
pub fn any(rows: &Rows, window: &Window) -> bool {
    with_first(rows, window).any(|row| !columns(rows, window, row).is_empty())
}

/// Whether every vector of the box is an iteration.
pub fn fits(rows: &Rows, window: &Window, bounds: &Bounds) -> bool {
    let [(top, bottom), (left, right)] = ends(bounds);
    (top..=bottom).all(|row| {
        let columns = columns(rows, window, row);
        columns.contains(&left) && columns.contains(&right)
    })
}

/// The columns of the iterations of a row in a run: those of the box, where one stood.
pub fn run_columns(rows: &Rows, window: &Window, bounds: &Bounds, row: i64) -> Range<i64> {
    if !bounds.stood {
        return columns(rows, window, row);
    }
    let [(top, bottom), (left, right)] = ends(bounds);
    if row < top || row > bottom {
        return 0..0;
    }
    left..right + 1
}

/// The rows that have iterations in a run, a stretch each. The box fits, where one stood.
pub fn stretches(rows: &Rows, window: &Window, bounds: &Bounds) -> Vec<Stretch> {
    let firsts = firsts(rows);
    let mut stretches = Vec::new();
    let mut number = 0;
    for row in with_first(rows, window) {
        let columns = run_columns(rows, window, bounds, row);
        if columns.is_empty() {
            continue;
        }
        let mut reads = [0; 32];
        for k in 0..window.count as usize {
            let read = (row + entry(window, k, 0)) as usize;
            let column = columns.start + entry(window, k, 1);
            reads[k] = (firsts[read] + column - rows.rows[read].start as i64) as u32;
        }
        let count = columns.end - columns.start;
        stretches.push(Stretch {
            first: number,
            count,
            reads,
        });
        number += count;
    }
    stretches
}

/// The rows from which reference 0 stays in the grid's rows; no other has iterations.
pub fn with_first(rows: &Rows, window: &Window) -> Range<i64> {
    let top = -entry(window, 0, 0);
    top..top + rows.count as i64
}

/// The position of each row's first cell: the lengths of the rows above.
pub fn firsts(rows: &Rows) -> Vec<i64> {
    let mut cells = 0;
    let above = |length: i64| {
        cells += length;
        cells - length
    };
    let lengths = rows.given().iter().map(|row| row.length as i64);
    lengths.map(above).collect()
}

fn entry(window: &Window, k: usize, d: usize) -> i64 {
    window.offset(k, 2)[d] as i64
}

/// The lowest and the highest row, the lowest and the highest column.
fn ends(bounds: &Bounds) -> [(i64, i64); 2] {
    [0, 1].map(|d| (bounds.lowest[d] as i64, bounds.highest[d] as i64))
}
