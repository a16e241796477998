//! Results as a picture.

use super::Smoothed;
use crate::csv::Map;
use crate::svg::{self, Cell, Heat, Panel, Scale};

/// Results, with the titles of their panel and of the panel of what they changed.
pub struct Shown<'a> {
    pub after: &'a Smoothed<'a>,
    pub title: &'a str,
    pub change: &'a str,
}

/// A map before, each of its results, and what each of them changed. Before and the results have one scale, the changes
/// another.
pub fn picture(title: &str, map: &Map, results: &[Shown]) -> String {
    let before = |i: usize, j: usize| value(map, map.word(i, j));
    let places = || (0..map.height()).flat_map(|i| (0..map.width()).map(move |j| (i, j)));
    let each = || {
        results
            .iter()
            .flat_map(|one| places().map(move |at| (one, at)))
    };
    let values = places().filter_map(|(i, j)| before(i, j));
    let results_of = each().filter_map(|(one, (i, j))| one.value_at(i, j));
    let scale = Scale::of(values.chain(results_of));
    let most = Scale::of_changes(each().filter_map(|(one, (i, j))| one.change_at(i, j)));

    let mut panels = vec![panel(map, "before", scale, before)];
    panels.extend(
        results
            .iter()
            .map(|one| panel(map, one.title, scale, |i, j| one.value_at(i, j))),
    );
    panels.extend(
        results
            .iter()
            .map(|one| panel(map, one.change, most, |i, j| one.change_at(i, j))),
    );
    svg::heat(&Heat {
        title,
        height: map.height(),
        width: map.width(),
        top: map.top(),
        left: map.left(),
        panels,
    })
}

fn value(map: &Map, word: Option<u32>) -> Option<f32> {
    word.map(|word| map.kind().value(word))
}

impl Shown<'_> {
    fn value_at(&self, i: usize, j: usize) -> Option<f32> {
        value(self.after.map, self.after.word(i, j))
    }

    fn change_at(&self, i: usize, j: usize) -> Option<f32> {
        let map = self.after.map;
        Some(self.value_at(i, j)? - value(map, map.word(i, j))?)
    }
}

/// A panel of values at cells of a map; a cell without one is of the rim.
fn panel<'a>(
    map: &'a Map,
    title: &'a str,
    scale: Scale,
    value: impl Fn(usize, usize) -> Option<f32> + 'a,
) -> Panel<'a> {
    let cell = move |i: usize, j: usize| match value(i, j) {
        Some(value) => Cell::Value(value),
        None if map.word(i, j).is_some() => Cell::Rim,
        None => Cell::Outside,
    };
    Panel {
        title,
        scale,
        cell: Box::new(cell),
    }
}
