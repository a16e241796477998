//! The cells of a panel: one by one, or as the pixels of an image.

use super::axis::Axis;
use super::base64::base64;
use super::colour::{Colour, Ramp, NO_NUMBER, OUTSIDE, RIM};
use super::digits::shortest;
use super::heat::{Cell, Panel, Picture};
use super::page::{Area, Coordinate, Page, SMALL};
use super::png::png;
use super::text::{cut, escape};
use std::fmt::Write;
use std::iter::repeat_n;

/// What the key has to explain.
#[derive(Default)]
pub struct Seen {
    pub rim: bool,
    pub no_number: bool,
}

/// The room for a name in the words of a cell.
const NAME_ROOM: f64 = 200.0;

/// Each cell is a square of side 1 with its value in words; all of them are stretched over the plot.
pub fn draw_single(
    page: &mut Page,
    picture: &Picture,
    panel: &Panel,
    plot: &Area,
    seen: &mut Seen,
) {
    if picture.left.count == 0 || picture.top.count == 0 {
        return;
    }
    let names = |axis: &Axis| -> Vec<String> {
        let name = |k| escape(&cut(&axis.name(k), SMALL, NAME_ROOM));
        (0..axis.count).map(name).collect()
    };
    let (rows, columns) = (names(&picture.left), names(&picture.top));
    let ramp = Ramp::of(&panel.scale);
    let body = page.body();
    let _ = writeln!(
        body,
        "<g transform=\"translate({},{}) scale({},{})\" shape-rendering=\"crispEdges\">",
        Coordinate(plot.x),
        Coordinate(plot.y),
        picture.layout.cell_width,
        picture.layout.cell_height
    );
    for (i, row) in rows.iter().enumerate() {
        for (j, column) in columns.iter().enumerate() {
            let Some((fill, words)) = look(&(panel.cell)(i, j), &ramp, seen) else {
                continue;
            };
            let _ = writeln!(
                body,
                "<path d=\"M{j},{i}h1v1h-1z\" fill=\"{fill}\">\
                 <title>{row} / {column}: {words}</title></path>"
            );
        }
    }
    *body += "</g>\n";
}

/// A cell's fill and its value in words, if it is drawn at all.
fn look(cell: &Cell, ramp: &Ramp, seen: &mut Seen) -> Option<(String, String)> {
    match *cell {
        Cell::Outside => None,
        Cell::Rim => {
            seen.rim = true;
            Some(("url(#rim)".to_string(), "rim".to_string()))
        }
        Cell::Value(value) if value.is_finite() => {
            let colour = ramp.colour(ramp.position(value));
            Some((colour.to_string(), shortest(value)))
        }
        Cell::Value(value) => {
            seen.no_number = true;
            let words = match value {
                f32::INFINITY => "infinity",
                f32::NEG_INFINITY => "-infinity",
                _ => "not a number",
            };
            Some((NO_NUMBER.to_string(), words.to_string()))
        }
    }
}

/// An image shows at most so many rows and columns: not all programs take longer sides.
const MOST_PIXELS: usize = 2048;

/// Of so many rows, and of so many columns, one is in the image.
pub fn steps(picture: &Picture) -> (usize, usize) {
    let step = |axis: &Axis| axis.count.div_ceil(MOST_PIXELS).max(1);
    (step(&picture.left), step(&picture.top))
}

/// A cell is as many pixels wide and high as on the page, for programs that blur what they enlarge.
pub fn draw_image(page: &mut Page, picture: &Picture, panel: &Panel, plot: &Area, seen: &mut Seen) {
    let ramp = Ramp::of(&panel.scale);
    let (down, right) = steps(picture);
    let whole = |side: f64| (side.round() as usize).max(1);
    let high = whole(picture.layout.cell_height);
    let wide = whole(picture.layout.cell_width);
    let mut pixels = Vec::new();
    for i in (0..picture.left.count).step_by(down) {
        let row = (0..picture.top.count).step_by(right);
        let row = row.map(|j| pixel(&(panel.cell)(i, j), &ramp, seen));
        let row: Vec<u8> = row.flat_map(|pixel| repeat_n(pixel, wide)).collect();
        for _ in 0..high {
            pixels.extend(&row);
        }
    }
    let width = picture.top.count.div_ceil(right) * wide;
    // A cell of some size keeps its edges; where cells share a pixel they are mixed.
    let largest = picture.layout.cell_width.max(picture.layout.cell_height);
    let edges = if largest >= 1.0 {
        " image-rendering=\"optimizeSpeed\" style=\"image-rendering:pixelated\""
    } else {
        ""
    };
    let _ = writeln!(
        page.body(),
        "<image x=\"{}\" y=\"{}\" width=\"{}\" height=\"{}\" preserveAspectRatio=\"none\"{edges} \
         xlink:href=\"data:image/png;base64,{}\"/>",
        Coordinate(plot.x),
        Coordinate(plot.y),
        Coordinate(plot.width),
        Coordinate(plot.height),
        base64(&png(width, &palette(&ramp), &pixels))
    );
}

/// The colours of an image: those of the ramp, then the three for cells without a value. The ramp's
/// are odd in number, so that its middle is one of them.
const RAMP_COLOURS: u8 = 253;
const OUTSIDE_PIXEL: u8 = 253;
const RIM_PIXEL: u8 = 254;
const NO_NUMBER_PIXEL: u8 = 255;

fn palette(ramp: &Ramp) -> Vec<[u8; 3]> {
    let last = f64::from(RAMP_COLOURS - 1);
    let colours = (0..RAMP_COLOURS).map(|k| ramp.colour(f64::from(k) / last));
    let others = [OUTSIDE, RIM, NO_NUMBER];
    let bytes = |Colour(red, green, blue)| [red, green, blue];
    colours.chain(others).map(bytes).collect()
}

fn pixel(cell: &Cell, ramp: &Ramp, seen: &mut Seen) -> u8 {
    match *cell {
        Cell::Outside => OUTSIDE_PIXEL,
        Cell::Rim => {
            seen.rim = true;
            RIM_PIXEL
        }
        Cell::Value(value) if value.is_finite() => {
            (ramp.position(value) * f64::from(RAMP_COLOURS - 1)).round() as u8
        }
        Cell::Value(_) => {
            seen.no_number = true;
            NO_NUMBER_PIXEL
        }
    }
}
