//! The document: its frame, boxes, lines and texts.

use super::text::{cut, escape, width};
use std::fmt;

/// The size of ordinary text.
pub const SMALL: f64 = 11.0;
/// The size of the title.
const LARGE: f64 = 15.0;
/// The empty border of each page.
pub const BORDER: f64 = 16.0;

/// A coordinate with at most two decimals.
pub struct Coordinate(pub f64);

impl fmt::Display for Coordinate {
    fn fmt(&self, out: &mut fmt::Formatter) -> fmt::Result {
        let rounded = (self.0 * 100.0).round() / 100.0;
        write!(out, "{}", if rounded.is_finite() { rounded } else { 0.0 })
    }
}

#[derive(Clone, Copy)]
pub struct Area {
    pub x: f64,
    pub y: f64,
    pub width: f64,
    pub height: f64,
}

/// A text at a place, cut to the room that it has.
pub struct Label<'a> {
    x: f64,
    y: f64,
    text: &'a str,
    size: f64,
    room: f64,
    anchor: &'static str,
    colour: &'static str,
    bold: bool,
}

impl<'a> Label<'a> {
    /// A text that begins at x and stands on y.
    pub fn at(x: f64, y: f64, text: &'a str) -> Label<'a> {
        Label {
            x,
            y,
            text,
            size: SMALL,
            room: f64::INFINITY,
            anchor: "start",
            colour: "#000",
            bold: false,
        }
    }

    pub fn size(self, size: f64) -> Label<'a> {
        Label { size, ..self }
    }

    pub fn room(self, room: f64) -> Label<'a> {
        Label { room, ..self }
    }

    /// The text's middle stands at x.
    pub fn middle(self) -> Label<'a> {
        Label {
            anchor: "middle",
            ..self
        }
    }

    /// The text ends at x.
    pub fn end(self) -> Label<'a> {
        Label {
            anchor: "end",
            ..self
        }
    }

    pub fn colour(self, colour: &'static str) -> Label<'a> {
        Label { colour, ..self }
    }

    pub fn bold(self) -> Label<'a> {
        Label { bold: true, ..self }
    }
}

/// How much wider than ordinary letters bold ones are.
const BOLD: f64 = 1.13;

/// The width of a title.
pub fn title_width(title: &str) -> f64 {
    width(title, LARGE * BOLD)
}

pub struct Page {
    width: f64,
    body: String,
}

impl Page {
    /// A page with a title at its top, cut to the page's width.
    pub fn new(width: f64, title: &str) -> Page {
        let mut page = Page {
            width,
            body: String::new(),
        };
        let room = width - 2.0 * BORDER;
        page.label(Label::at(BORDER, 24.0, title).size(LARGE).bold().room(room));
        page
    }

    pub fn width(&self) -> f64 {
        self.width
    }

    /// What follows is written as it is: whole elements.
    pub fn body(&mut self) -> &mut String {
        &mut self.body
    }

    pub fn label(&mut self, label: Label) {
        let measured = label.size * if label.bold { BOLD } else { 1.0 };
        let text = cut(label.text, measured, label.room);
        if text.is_empty() {
            return;
        }
        self.body += &format!(
            "<text x=\"{}\" y=\"{}\"",
            Coordinate(label.x),
            Coordinate(label.y)
        );
        if label.size != SMALL {
            self.body += &format!(" font-size=\"{}\"", Coordinate(label.size));
        }
        if label.anchor != "start" {
            self.body += &format!(" text-anchor=\"{}\"", label.anchor);
        }
        if label.colour != "#000" {
            self.body += &format!(" fill=\"{}\"", label.colour);
        }
        if label.bold {
            self.body += " font-weight=\"bold\"";
        }
        self.body += &format!(">{}</text>\n", escape(&text));
    }

    /// A box; `look` are further attributes.
    pub fn area(&mut self, area: &Area, look: &str) {
        self.body += &format!(
            "<rect x=\"{}\" y=\"{}\" width=\"{}\" height=\"{}\" {look}/>\n",
            Coordinate(area.x),
            Coordinate(area.y),
            Coordinate(area.width),
            Coordinate(area.height)
        );
    }

    /// The whole file; the page has this height.
    pub fn finish(self, height: f64) -> String {
        let (width, height) = (self.width.ceil(), height.ceil());
        format!(
            "<?xml version=\"1.0\" encoding=\"UTF-8\"?>\n\
             <svg xmlns=\"http://www.w3.org/2000/svg\" xmlns:xlink=\"http://www.w3.org/1999/xlink\" \
             version=\"1.1\" width=\"{width}\" height=\"{height}\" viewBox=\"0 0 {width} {height}\" \
             font-family=\"DejaVu Sans, Helvetica, Arial, sans-serif\" font-size=\"{SMALL}\">\n\
             <rect width=\"{width}\" height=\"{height}\" fill=\"#fff\"/>\n{}</svg>\n",
            self.body
        )
    }
}
