//! Maps as heat: a colour a cell, panels beside each other.

use super::axis::Axis;
use super::cells::{draw_image, draw_single, steps, Seen};
use super::colour::{Ramp, NO_NUMBER, RIM};
use super::layout::Layout;
use super::legend::{self, Key};
use super::page::{Label, Page};
use std::fmt::Write;

/// Some maps of the same cells.
pub struct Heat<'a> {
    pub title: &'a str,
    pub height: usize,
    pub width: usize,
    /// The names of the columns; without them they are numbered from 0.
    pub top: Option<Vec<&'a str>>,
    /// The names of the rows.
    pub left: Option<Vec<&'a str>>,
    pub panels: Vec<Panel<'a>>,
}

pub struct Panel<'a> {
    pub title: &'a str,
    pub scale: Scale,
    /// The cell of a row and a column.
    pub cell: Box<dyn Fn(usize, usize) -> Cell + 'a>,
}

#[derive(Clone, Copy, Debug)]
pub enum Scale {
    Values {
        low: f32,
        high: f32,
    },
    /// From less by `most` to more by `most`.
    Change {
        most: f32,
    },
}

impl Scale {
    /// From the least to the greatest of these values, as far as they are finite.
    pub fn of(values: impl Iterator<Item = f32>) -> Scale {
        let finite = values.filter(|value| value.is_finite());
        let wider = |(low, high): (f32, f32), value: f32| (low.min(value), high.max(value));
        match finite
            .map(|value| (value, value))
            .reduce(|ends, (value, _)| wider(ends, value))
        {
            Some((low, high)) => Scale::Values { low, high },
            None => Scale::Values {
                low: 0.0,
                high: 0.0,
            },
        }
    }

    /// As far as the greatest of these changes, as far as they are finite.
    pub fn of_changes(changes: impl Iterator<Item = f32>) -> Scale {
        let finite = changes.filter(|change| change.is_finite());
        Scale::Change {
            most: finite.map(f32::abs).fold(0.0, f32::max),
        }
    }
}

#[derive(Clone, Copy, Debug)]
pub enum Cell {
    Value(f32),
    /// A cell of the map without a firing.
    Rim,
    /// No cell of the map.
    Outside,
}

/// A map of more cells is drawn as an image.
const MOST_SINGLE: usize = 10_000;

pub fn heat(heat: &Heat) -> String {
    let picture = Picture::of(heat);
    let mut page = Page::new(picture.layout.page_width(), heat.title);
    picture.define(&mut page);
    let mut seen = Seen::default();
    for (number, panel) in heat.panels.iter().enumerate() {
        picture.draw_panel(&mut page, number, panel, &mut seen);
    }
    let bottom = picture.draw_key(&mut page, &seen);
    page.finish(bottom)
}

pub(super) struct Picture<'a> {
    pub top: Axis<'a>,
    pub left: Axis<'a>,
    pub layout: Layout,
}

impl<'a> Picture<'a> {
    fn of(heat: &'a Heat<'a>) -> Picture<'a> {
        let top = Axis {
            names: heat.top.as_deref(),
            count: heat.width,
        };
        let left = Axis {
            names: heat.left.as_deref(),
            count: heat.height,
        };
        let layout = Layout::of(heat, &left);
        Picture { top, left, layout }
    }

    /// Cells are drawn one by one, each with its value.
    fn single(&self) -> bool {
        self.left.count.saturating_mul(self.top.count) <= MOST_SINGLE
    }

    /// The gradients, and the hatching: as it looks on the page, and for cells that are drawn as
    /// squares of side 1 and stretched.
    fn define(&self, page: &mut Page) {
        *page.body() += "<defs>\n";
        legend::define(
            page,
            &Ramp::of(&Scale::Values {
                low: 0.0,
                high: 1.0,
            }),
        );
        legend::define(page, &Ramp::of(&Scale::Change { most: 1.0 }));
        let (x, y) = (1.0 / self.layout.cell_width, 1.0 / self.layout.cell_height);
        let _ = write!(
            page.body(),
            "<pattern id=\"hatched\" width=\"6\" height=\"6\" patternUnits=\"userSpaceOnUse\">\
             <rect width=\"6\" height=\"6\" fill=\"#e8e8e8\"/>\
             <path d=\"M-1,1l2,-2M0,6l6,-6M5,7l2,-2\" stroke=\"#888\"/></pattern>\n\
             <pattern id=\"rim\" xlink:href=\"#hatched\" patternTransform=\"scale({x},{y})\"/>\n\
             </defs>\n"
        );
    }

    fn draw_panel(&self, page: &mut Page, number: usize, panel: &Panel, seen: &mut Seen) {
        let plot = self.layout.plot(number);
        let title = Label::at(plot.x, plot.y - 24.0, panel.title).size(13.0);
        page.label(title.room(self.layout.panel_title_room()));
        if self.single() {
            draw_single(page, self, panel, &plot, seen);
        } else {
            draw_image(page, self, panel, &plot, seen);
        }
        page.area(&plot, "fill=\"none\" stroke=\"#555\" stroke-width=\"0.5\"");
        self.top.draw_top(page, &plot);
        self.left.draw_left(page, &plot);
        legend::draw(page, &self.layout.legend(number), &Ramp::of(&panel.scale));
    }

    /// Says what is not to be seen from the numbers; answers where the page ends.
    fn draw_key(&self, page: &mut Page, seen: &Seen) -> f64 {
        let mut key = Key::at(self.layout.bottom());
        if seen.rim && self.single() {
            key.add(page, Some("url(#hatched)"), "hatched: rim, no firing");
        }
        if seen.rim && !self.single() {
            key.add(page, Some(&RIM.to_string()), "grey: rim, no firing");
        }
        if seen.no_number {
            let words = "magenta: not a number, or infinite";
            key.add(page, Some(&NO_NUMBER.to_string()), words);
        }
        let (down, right) = steps(self);
        for (step, what) in [(down, "rows"), (right, "columns")] {
            if step > 1 && !self.single() {
                key.add(page, None, &format!("of {step} {what} one is shown"));
            }
        }
        key.bottom()
    }
}
