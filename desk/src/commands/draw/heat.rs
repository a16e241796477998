use super::drawable;
use crate::arguments::Arguments;
use crate::fault::{trouble, Result};
use crate::files;
use crate::grid::Grid;
use crate::maps::{self, Map};
use crate::results::Results;
use crate::svg::{self, Cell, Heat, Panel, Scale};
use crate::wording::{count, grouped};

pub fn heat(arguments: &Arguments) -> Result<()> {
    let name = &arguments.operands[0];
    let shown = files::shown(name);
    let picture = match maps::read(name, arguments)? {
        Map::Csv(map) => {
            arguments.without(&["--grid"], "a map in CSV has its own grid")?;
            Grid::of_map(&map).judged()?;
            drawable(map.height(), map.width())?;
            let value = |i, j| map.word(i, j).map(|word| map.kind().value(word));
            let labels = (map.top(), map.left());
            one_panel(shown, (map.height(), map.width()), labels, &value)
        }
        Map::Lines(cells) => {
            let table = Table::of(&Grid::asked(arguments)?.judged()?, cells)?;
            one_panel(
                shown,
                (table.rows.len(), table.width),
                (None, None),
                &|i, j| table.value(i, j),
            )
        }
    };
    Results::write(arguments.value("-o"), picture)
}

type Labels<'a> = (Option<Vec<&'a str>>, Option<Vec<&'a str>>);

fn one_panel(
    title: &str,
    (height, width): (usize, usize),
    (top, left): Labels,
    value: &dyn Fn(usize, usize) -> Option<f32>,
) -> String {
    let places = || (0..height).flat_map(|i| (0..width).map(move |j| (i, j)));
    let scale = Scale::of(places().filter_map(|(i, j)| value(i, j)));
    let cell = |i, j| value(i, j).map_or(Cell::Outside, Cell::Value);
    let panel = Panel {
        title: "",
        scale,
        cell: Box::new(cell),
    };
    let heat = Heat {
        title,
        height,
        width,
        top,
        left,
        panels: vec![panel],
    };
    svg::heat(&heat)
}

/// Cells in lines on a grid of two dimensions.
struct Table {
    /// First column, length and position of each row.
    rows: Vec<(usize, usize, usize)>,
    width: usize,
    cells: Vec<u32>,
}

impl Table {
    fn of(grid: &Grid, cells: Vec<u32>) -> Result<Table> {
        let Some(rows) = grid.rows() else {
            return trouble(format!(
                "draw heat: a grid of two dimensions is asked for, and this has {}",
                grid.dimensions()
            ));
        };
        let mut position = 0usize;
        let rows: Vec<_> = rows
            .into_iter()
            .map(|(start, length)| {
                let length = length as usize;
                position += length;
                (start as usize, length, position - length)
            })
            .collect();
        if position != cells.len() {
            return trouble(format!(
                "draw heat: {}, and the grid has {}",
                count(cells.len(), "cell"),
                grouped(position as u128)
            ));
        }
        let width = rows
            .iter()
            .map(|(start, length, _)| start + length)
            .max()
            .unwrap_or(0);
        Ok(Table { rows, width, cells })
    }

    fn value(&self, i: usize, j: usize) -> Option<f32> {
        let (start, length, position) = self.rows[i];
        let inside = j >= start && j < start + length;
        inside.then(|| f32::from_bits(self.cells[position + j - start]))
    }
}
