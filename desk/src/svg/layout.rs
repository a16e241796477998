//! Where the parts of a heat picture stand.

use super::axis::Axis;
use super::heat::Heat;
use super::page::{title_width, Area, BORDER};

/// The longest side of a plot, and that of a long and narrow one.
const SIDE: f64 = 400.0;
const LONG: f64 = 1024.0;
/// The largest cell, and the least height or width that a plot is stretched to.
const CELL: f64 = 28.0;
const LEAST: f64 = 40.0;

/// Above a plot: the panel's title and the names of the columns.
const HEAD: f64 = 40.0;
/// Right of a plot: a gap for the last column's name, the bar of colours, its numbers.
const LEGEND_GAP: f64 = 20.0;
const LEGEND_WIDTH: f64 = 116.0;
const LEGEND_LEAST: f64 = 60.0;
const LEGEND_MOST: f64 = 400.0;
/// Above the panels: the picture's title.
const TOP: f64 = 40.0;
/// The least width of a page, and the width that a title may widen it to.
const NARROW: f64 = 480.0;
const WIDE: f64 = 900.0;

/// No more panels stand side by side; the others stand below them.
const ACROSS: usize = 3;

/// The room for the name of the first column, where it is wider than its column.
const LEFT_LEAST: f64 = 24.0;

pub struct Layout {
    pub cell_width: f64,
    pub cell_height: f64,
    plot_width: f64,
    plot_height: f64,
    left: f64,
    panels: usize,
    /// How many panels stand side by side, 1 or more.
    across: usize,
    title_width: f64,
}

impl Layout {
    pub fn of(heat: &Heat, left: &Axis) -> Layout {
        let (rows, columns) = (heat.height as f64, heat.width as f64);
        let (flat, upright) = (columns >= 3.0 * rows, rows >= 3.0 * columns);
        let most_width = if flat { LONG } else { SIDE };
        let most_height = if upright { LONG } else { SIDE };
        let side = even((most_width / columns).min(most_height / rows).min(CELL));
        let cell_width = side.max((LEAST / columns).min(CELL));
        let cell_height = side.max((LEAST / rows).min(CELL));
        Layout {
            cell_width,
            cell_height,
            plot_width: cell_width * columns,
            plot_height: cell_height * rows,
            left: left.left_room().max(LEFT_LEAST),
            panels: heat.panels.len(),
            across: if flat { 1 } else { ACROSS },
            title_width: title_width(heat.title),
        }
    }

    fn panel_width(&self) -> f64 {
        self.left + self.plot_width + LEGEND_GAP + LEGEND_WIDTH
    }

    fn panel_height(&self) -> f64 {
        HEAD + self.plot_height.max(LEGEND_LEAST) + BORDER
    }

    fn rows(&self) -> usize {
        self.panels.div_ceil(self.across)
    }

    /// Row and column of a panel. Below another row one that is not full stands at the right.
    fn place(&self, panel: usize) -> (usize, usize) {
        let (row, column) = (panel / self.across, panel % self.across);
        if row > 0 && row + 1 == self.rows() {
            return (row, column + self.rows() * self.across - self.panels);
        }
        (row, column)
    }

    /// The plot of a panel.
    pub fn plot(&self, panel: usize) -> Area {
        let (row, column) = self.place(panel);
        Area {
            x: BORDER + column as f64 * self.panel_width() + self.left,
            y: TOP + row as f64 * self.panel_height() + HEAD,
            width: self.plot_width,
            height: self.plot_height,
        }
    }

    /// The bar of colours of a panel.
    pub fn legend(&self, panel: usize) -> Area {
        let plot = self.plot(panel);
        Area {
            x: plot.x + plot.width + LEGEND_GAP,
            y: plot.y,
            width: 12.0,
            height: plot.height.clamp(LEGEND_LEAST, LEGEND_MOST),
        }
    }

    /// The room for the title of a panel, from the left edge of its plot on.
    pub fn panel_title_room(&self) -> f64 {
        self.plot_width + LEGEND_GAP + LEGEND_WIDTH - 10.0
    }

    pub fn page_width(&self) -> f64 {
        let panels = self.panels.min(self.across) as f64 * self.panel_width();
        2.0 * BORDER + panels.max(self.title_width.clamp(NARROW, WIDE))
    }

    /// Where the panels end and the key begins.
    pub fn bottom(&self) -> f64 {
        TOP + self.rows() as f64 * self.panel_height()
    }
}

/// Sides of some pixels are whole, so that all cells look equal.
fn even(side: f64) -> f64 {
    if side >= 3.0 {
        side.floor()
    } else {
        side
    }
}

#[cfg(test)]
mod tests {
    use super::*;

    #[test]
    fn sizes_of_plots() {
        let plot = |height: usize, width: usize| {
            let heat = Heat {
                title: "",
                height,
                width,
                top: None,
                left: None,
                panels: vec![],
            };
            let left = Axis {
                names: None,
                count: height,
            };
            let plot = Layout::of(&heat, &left).plot(0);
            (plot.height.round(), plot.width.round())
        };
        assert_eq!(plot(3, 4), (84.0, 112.0));
        assert_eq!(plot(48, 64), (288.0, 384.0));
        assert_eq!(plot(1024, 1024), (400.0, 400.0));
        assert_eq!(plot(1, 1024), (28.0, 1024.0));
        assert_eq!(plot(3, 100_000), (40.0, 1024.0));
        assert_eq!(plot(512, 1), (1024.0, 28.0));
        assert_eq!(plot(0, 0), (0.0, 0.0));
    }

    #[test]
    fn panels_in_rows_of_three_and_of_flat_maps_below_each_other() {
        let places = |panels: usize, across: usize| {
            let layout = Layout {
                cell_width: 1.0,
                cell_height: 1.0,
                plot_width: 1.0,
                plot_height: 1.0,
                left: 0.0,
                panels,
                across,
                title_width: 0.0,
            };
            (0..panels)
                .map(|panel| layout.place(panel))
                .collect::<Vec<_>>()
        };
        assert_eq!(places(2, ACROSS), [(0, 0), (0, 1)]);
        assert_eq!(places(3, ACROSS), [(0, 0), (0, 1), (0, 2)]);
        let changes_below_results = [(0, 0), (0, 1), (0, 2), (1, 1), (1, 2)];
        assert_eq!(places(5, ACROSS), changes_below_results);
        assert_eq!(places(6, ACROSS)[3..], [(1, 0), (1, 1), (1, 2)]);
        assert_eq!(places(3, 1), [(0, 0), (1, 0), (2, 0)]);
    }
}
