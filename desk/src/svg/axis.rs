//! The names along an edge of a map.

use super::page::{Area, Label, Page, SMALL};
use super::text::{cut, width};
use std::borrow::Cow;

/// The most room for a name above a column.
const TOP_ROOM: f64 = 64.0;
/// The most room for a name beside a row.
const LEFT_ROOM: f64 = 96.0;
/// Between a name and its plot.
const GAP: f64 = 8.0;
/// Between two names above columns.
const BETWEEN: f64 = 6.0;

/// An edge's names, or the numbers from 0 where it has none.
pub struct Axis<'a> {
    pub names: Option<&'a [&'a str]>,
    pub count: usize,
}

impl<'a> Axis<'a> {
    pub fn name(&self, k: usize) -> Cow<'a, str> {
        match self.names.and_then(|names| names.get(k)) {
            Some(name) => Cow::Borrowed(name),
            None => Cow::Owned(k.to_string()),
        }
    }

    /// The width of the widest name, cut to the room.
    fn widest(&self, room: f64) -> f64 {
        let names = self.names.unwrap_or_default().iter().take(self.count);
        let named = names.map(|name| width(&cut(name, SMALL, room), SMALL));
        let last = width(&self.count.saturating_sub(1).to_string(), SMALL);
        let numbered = if self.names.is_some() { 0.0 } else { last };
        named.fold(numbered, f64::max)
    }

    /// The room that the names of an upright edge take beside the plot.
    pub fn left_room(&self) -> f64 {
        self.widest(LEFT_ROOM) + GAP
    }

    /// Names above the columns.
    pub fn draw_top(&self, page: &mut Page, plot: &Area) {
        let pitch = plot.width / self.count as f64;
        let step = round_step((self.widest(TOP_ROOM) + BETWEEN) / pitch);
        for k in (0..self.count).step_by(step) {
            let x = plot.x + (k as f64 + 0.5) * pitch;
            let name = self.name(k);
            page.label(Label::at(x, plot.y - 8.0, &name).middle().room(TOP_ROOM));
        }
    }

    /// Names to the left of the rows.
    pub fn draw_left(&self, page: &mut Page, plot: &Area) {
        let pitch = plot.height / self.count as f64;
        let step = round_step((SMALL + 2.0) / pitch);
        for k in (0..self.count).step_by(step) {
            let y = plot.y + (k as f64 + 0.5) * pitch + 4.0;
            let name = self.name(k);
            page.label(Label::at(plot.x - GAP, y, &name).end().room(LEFT_ROOM));
        }
    }
}

/// The first of 1, 2, 5, 10, 20, 50, .. that is not below the least.
pub fn round_step(least: f64) -> usize {
    let mut power: usize = 1;
    loop {
        for factor in [1, 2, 5] {
            let step = power.saturating_mul(factor);
            if step as f64 >= least || step == usize::MAX || least.is_nan() {
                return step;
            }
        }
        power = power.saturating_mul(10);
    }
}

#[cfg(test)]
mod tests {
    use super::*;

    #[test]
    fn round_steps() {
        let steps = [0.0, 1.0, 1.1, 2.0, 3.0, 5.1, 10.0, 11.0, 201.0];
        assert_eq!(steps.map(round_step), [1, 1, 2, 2, 5, 10, 10, 20, 500]);
        assert_eq!(round_step(f64::INFINITY), usize::MAX);
        assert_eq!(round_step(f64::NAN), 1);
        assert_eq!(round_step(f64::NEG_INFINITY), 1);
    }

    #[test]
    fn names_or_numbers() {
        let names = ["a", "b"];
        let axis = Axis {
            names: Some(&names),
            count: 3,
        };
        assert_eq!([axis.name(0), axis.name(1), axis.name(2)], ["a", "b", "2"]);
        let axis = Axis {
            names: None,
            count: 3,
        };
        assert_eq!(axis.name(2), "2");
    }
}
