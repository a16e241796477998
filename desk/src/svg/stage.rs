//! A stage of a chain: its splitter, its filter, and the FIFO to the next stage.

use super::chain::{arrow, fitted, place, ChainPicture, KERNEL, PITCH, SPLITTER};
use super::page::{Area, Label, Page};
use super::text::width;

/// The filter below its splitter.
const FILTER: f64 = 36.0;
const FILTER_HEIGHT: f64 = 36.0;
/// A FIFO between two splitters.
const FIFO_WIDTH: f64 = 84.0;
const FIFO_HEIGHT: f64 = 28.0;
/// The line from the end of a row to the next runs below the kernel.
const TURN: f64 = 148.0;

pub const BLACK: &str = "#000";
pub const RED: &str = "#c00";
const AMBER: &str = "#960";
pub const LIGHT_RED: &str = "#fdd";
pub const LIGHT_AMBER: &str = "#ffe8b0";

/// Line and fill of a box; a line that is not black is thick.
fn look(line: &str, fill: &str) -> String {
    let stroke = if line == BLACK { 1 } else { 2 };
    format!("fill=\"{fill}\" stroke=\"{line}\" stroke-width=\"{stroke}\"")
}

pub fn draw_splitter(page: &mut Page, k: usize) {
    let (x, y) = place(k);
    let circle = format!("<circle cx=\"{x}\" cy=\"{y}\" r=\"{SPLITTER}\"");
    *page.body() += &format!("{circle} fill=\"#eef\" stroke=\"#000\"/>\n");
    page.label(Label::at(x, y + 4.0, &format!("S{k}")).middle());
    arrow(page, &format!("M{x},{}V{}", y + SPLITTER, y + FILTER));
}

fn is_rising(picture: &ChainPicture, k: usize) -> bool {
    let first = picture.rising;
    first == Some(k) || k.checked_sub(1).is_some_and(|last| first == Some(last))
}

pub fn draw_filter(page: &mut Page, picture: &ChainPicture, k: usize, offset: &str) {
    let (x, y) = place(k);
    let (line, fill) = if is_rising(picture, k) {
        (RED, LIGHT_RED)
    } else {
        (BLACK, "#efe")
    };
    let wide = (width(offset, 12.0) + 12.0).clamp(76.0, PITCH - 12.0);
    let area = Area {
        x: x - wide / 2.0,
        y: y + FILTER,
        width: wide,
        height: FILTER_HEIGHT,
    };
    page.area(&area, &format!("rx=\"4\" {}", look(line, fill)));
    let name = format!("F{k}");
    let label = |y: f64, text| Label::at(x, y, text).middle().colour(line);
    page.label(label(area.y + 15.0, &name));
    let room = wide - 8.0;
    let size = fitted(offset, 12.0, room);
    page.label(label(area.y + 30.0, offset).size(size).room(room));
    let bottom = area.y + area.height;
    arrow(page, &format!("M{x},{bottom}V{}", y + KERNEL));
}

/// How a FIFO stands beside what it needs.
pub enum Store {
    Short(u32),
    Larger(u32),
    Fits,
}

pub fn store(picture: &ChainPicture, k: usize) -> Store {
    let places = picture.places.get(k);
    let needs = picture.needs.and_then(|needs| needs.get(k));
    match (places, needs) {
        (Some(places), Some(needs)) if places < needs => Store::Short(*needs),
        (Some(places), Some(needs)) if places > needs => Store::Larger(*needs),
        _ => Store::Fits,
    }
}

/// FIFO k, between splitters k and k + 1.
pub fn draw_fifo(page: &mut Page, picture: &ChainPicture, k: usize) {
    let (x, y) = place(k);
    let (line, fill, needs) = match store(picture, k) {
        Store::Short(needs) => (RED, LIGHT_RED, format!("needs {needs}")),
        Store::Larger(needs) => (AMBER, LIGHT_AMBER, format!("needs {needs}")),
        Store::Fits => (BLACK, "#fff", String::new()),
    };
    let area = Area {
        x: x + (PITCH - FIFO_WIDTH) / 2.0,
        y: y - FIFO_HEIGHT / 2.0,
        width: FIFO_WIDTH,
        height: FIFO_HEIGHT,
    };
    page.area(&area, &look(line, fill));
    let (name, places) = (format!("FIFO {k}"), picture.places.get(k));
    let places = places.map_or(String::new(), u32::to_string);
    let label = |y: f64, text| Label::at(x + PITCH / 2.0, y, text).middle().colour(line);
    page.label(label(y - 20.0, &name));
    page.label(label(y + 4.0, &places).size(12.0));
    if picture.rising == Some(k) {
        page.label(label(y + 27.0, "rising order").colour(RED));
    } else {
        page.label(label(y + 27.0, &needs));
    }
    draw_flow(page, k, &area);
}

/// The lines into a FIFO and from it to the next splitter, which may stand in the next row.
fn draw_flow(page: &mut Page, k: usize, fifo: &Area) {
    let (x, y) = place(k);
    let (next_x, next_y) = place(k + 1);
    arrow(page, &format!("M{},{y}H{}", x + SPLITTER, fifo.x));
    let (leave, end) = (fifo.x + fifo.width, next_x - SPLITTER);
    if next_y == y {
        arrow(page, &format!("M{leave},{y}H{end}"));
    } else {
        let (down, back) = (y + TURN, end - 40.0);
        let path = format!("M{leave},{y}h16V{down}H{back}V{next_y}H{end}");
        arrow(page, &path);
    }
}
