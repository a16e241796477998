//! The bar of colours beside a plot, and the key below all of them.

use super::colour::Ramp;
use super::digits::{shortest, spread};
use super::page::{Area, Label, Page, BORDER, SMALL};
use super::text::width;
use std::fmt::Write;

/// The colours of a ramp as a gradient, under the ramp's name.
pub fn define(page: &mut Page, ramp: &Ramp) {
    let body = page.body();
    let name = ramp.name;
    *body += &format!("<linearGradient id=\"{name}\" x1=\"0\" y1=\"1\" x2=\"0\" y2=\"0\">");
    let last = (ramp.stops.len() - 1) as f64;
    for (k, colour) in ramp.stops.iter().enumerate() {
        let offset = k as f64 / last;
        let _ = write!(body, "<stop offset=\"{offset}\" stop-color=\"{colour}\"/>");
    }
    *body += "</linearGradient>\n";
}

/// The bar with its numbers. A scale of one value has one colour; one without numbers has no bar.
pub fn draw(page: &mut Page, bar: &Area, ramp: &Ramp) {
    let Some((low, high)) = ramp.range else {
        return;
    };
    let (fill, texts) = if low < high {
        let count = if bar.height < 100.0 { 3 } else { 5 };
        (format!("url(#{})", ramp.name), spread(low, high, count))
    } else {
        (ramp.colour(0.5).to_string(), vec![shortest(high as f32)])
    };
    page.area(
        bar,
        &format!("fill=\"{fill}\" stroke=\"#555\" stroke-width=\"0.5\""),
    );
    for (k, text) in texts.iter().enumerate() {
        let share = if texts.len() == 1 {
            0.5
        } else {
            k as f64 / (texts.len() - 1) as f64
        };
        let (x, y) = (bar.x + bar.width, bar.y + bar.height * (1.0 - share));
        page.area(
            &Area {
                x,
                y: y - 0.5,
                width: 3.0,
                height: 1.0,
            },
            "fill=\"#555\"",
        );
        page.label(Label::at(x + 6.0, y + 4.0, text));
    }
}

/// Swatches with words, in as many lines as they need; below the last of them the page ends.
pub struct Key {
    x: f64,
    y: f64,
}

impl Key {
    const LINE: f64 = 18.0;
    const SWATCH: f64 = 12.0;

    pub fn at(y: f64) -> Key {
        Key { x: BORDER, y }
    }

    /// A swatch with this fill, if any, and what it stands for.
    pub fn add(&mut self, page: &mut Page, fill: Option<&str>, words: &str) {
        let swatch = if fill.is_some() {
            Self::SWATCH + 6.0
        } else {
            0.0
        };
        let taken = swatch + width(words, SMALL);
        if self.x > BORDER && self.x + taken > page.width() - BORDER {
            self.x = BORDER;
            self.y += Self::LINE;
        }
        if let Some(fill) = fill {
            let (x, y) = (self.x, self.y);
            let area = Area {
                x,
                y,
                width: Self::SWATCH,
                height: Self::SWATCH,
            };
            page.area(
                &area,
                &format!("fill=\"{fill}\" stroke=\"#555\" stroke-width=\"0.5\""),
            );
        }
        let room = page.width() - BORDER - self.x - swatch;
        page.label(Label::at(self.x + swatch, self.y + 10.0, words).room(room));
        self.x += taken + 20.0;
    }

    /// The height of a page that ends with this key.
    pub fn bottom(&self) -> f64 {
        self.y
            + if self.x > BORDER {
                Self::LINE + 6.0
            } else {
                0.0
            }
    }
}

#[cfg(test)]
mod tests {
    use super::*;

    #[test]
    fn a_key_has_as_many_lines_as_it_needs() {
        let bottom = |width: f64, words: &[&str]| {
            let mut page = Page::new(width, "");
            let mut key = Key::at(100.0);
            for words in words {
                key.add(&mut page, Some("#fff"), words);
            }
            key.bottom()
        };
        // A swatch takes 18, ten digits 70.4, the borders 32, the gap between two entries 20.
        let words = ["0123456789"; 2];
        assert_eq!(bottom(300.0, &[]), 100.0);
        assert_eq!(bottom(230.0, &words), 124.0);
        assert_eq!(bottom(220.0, &words), 142.0);
        assert_eq!(bottom(60.0, &words), 142.0);
    }
}
