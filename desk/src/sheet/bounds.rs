//! Which end of a box is wrong, and what it may be. The iterations are the library's.

use super::locate::without;
use super::parts::{Content, Grid};
use crate::place::{iterations, Iterations};
use crate::wording::{dimension, ends, vector};
use std::collections::BTreeSet;
use zohmirka::{Chain, Request};

/// Words for each end of the box that is wrong, on a sheet of good lines.
pub fn bad_box(sheet: &[u8], bounds: &[(i32, i32)]) -> Vec<String> {
    let crossed = crossed(bounds);
    if !crossed.is_empty() {
        return crossed;
    }
    let content = Content::read(sheet);
    let words = match &content.grid {
        Some(Grid::Rectangle(sizes)) => outside_ranges(bounds, sizes, &content.window()),
        _ => unbounded(sheet).map_or(Vec::new(), |all| outside_rows(bounds, &all)),
    };
    if words.is_empty() {
        let unknown = "a vector of the box is no iteration; which one is not known: the reuse distances sum above 16,384";
        return vec![unknown.to_string()];
    }
    words
}

fn crossed(bounds: &[(i32, i32)]) -> Vec<String> {
    let each = bounds.iter().enumerate();
    each.filter(|(_, (low, high))| low > high)
        .map(|(d, (low, high))| {
            let dimension = dimension(d, bounds.len());
            format!("the box's {dimension} is {low} to {high}, the lowest index above the highest")
        })
        .collect()
}

/// On a rectangle: the dimensions whose ends are not those of an iteration.
fn outside_ranges(bounds: &[(i32, i32)], sizes: &[u32], window: &[Vec<i16>]) -> Vec<String> {
    let words = |(d, &(low, high)): (usize, &(i32, i32))| {
        let entries = window.iter().filter_map(|offset| offset.get(d).copied());
        let (least, most) = range(*sizes.get(d)?, entries.collect())?;
        let outside = low < least || high > most;
        let dimension = dimension(d, bounds.len());
        outside.then(|| {
            format!("the box's {dimension} is {low} to {high}; it may be {least} to {most}")
        })
    };
    bounds.iter().enumerate().filter_map(words).collect()
}

/// The least and the greatest index of the iterations on a grid of one dimension. On a rectangle each
/// dimension has those of its own, whatever the others.
fn range(size: u32, entries: BTreeSet<i16>) -> Option<(i32, i32)> {
    let request = Request::on_rectangle(&[size]);
    let window = |request: Request, entry: i16| request.reference(&[entry]);
    let all = all_of(&entries.into_iter().fold(request, window).plan().ok()?)?;
    let indices = || all.iter().map(|iteration| iteration[0]);
    indices().min().zip(indices().max())
}

/// The iterations of the chain that is planned of the sheet's lines without its box.
fn unbounded(sheet: &[u8]) -> Option<Iterations> {
    let mut request = without(sheet, &["03", "04", "06", "08"]);
    request.extend_from_slice(b"0400\n");
    let chain = zohmirka::plan(&request).and_then(|sheet| Chain::read(&sheet));
    all_of(&chain.ok()?)
}

fn all_of(chain: &Chain) -> Option<Iterations> {
    iterations(chain, chain.cells() as usize).ok()
}

/// On rows: the first vector of the box that is no iteration, and what its row has. The iterations are
/// in order, each a row and a column.
fn outside_rows(bounds: &[(i32, i32)], all: &Iterations) -> Vec<String> {
    let &[(top, bottom), (left, right)] = bounds else {
        return Vec::new();
    };
    let (rows, columns) = (top..=bottom, left..=right);
    let in_box = |i: &&[i32]| rows.contains(&i[0]) && columns.contains(&i[1]);
    let mut reached = all.iter().filter(in_box);
    let mut vectors = rows
        .clone()
        .flat_map(|row| columns.clone().map(move |column| [row, column]));
    let outside = vectors.find(|vector| reached.next() != Some(vector));
    let words = outside.map(|outside| {
        let row = outside[0];
        let columns = || all.iter().filter(|i| i[0] == row).map(|i| i[1]);
        let has = match columns().min().zip(columns().max()) {
            Some((least, most)) => format!(
                "row {row} has {}",
                ends("column", least.into(), most.into())
            ),
            None => format!("row {row} has none"),
        };
        format!("{} is no iteration; {has}", vector(&outside))
    });
    words.into_iter().collect()
}
