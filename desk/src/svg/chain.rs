//! A chain: splitters and FIFOs in a line, filters below them, the kernel at the bottom.

use super::legend::Key;
use super::page::{title_width, Label, Page, BORDER, SMALL};
use super::stage::{draw_fifo, draw_filter, draw_splitter, store, Store};
use super::stage::{BLACK, LIGHT_AMBER, LIGHT_RED, RED};
use super::text::width;

pub struct ChainPicture<'a> {
    pub title: &'a str,
    /// Of each filter in turn.
    pub offsets: &'a [String],
    /// Of each FIFO in turn.
    pub places: &'a [u32],
    /// The places that each FIFO needs, where that is known.
    pub needs: Option<&'a [u32]>,
    /// A line below the picture, such as the verdict.
    pub note: &'a str,
    /// The kernel's name and factors.
    pub kernel: &'a str,
    /// The note tells of a fault.
    pub bad: bool,
    /// This filter and the next stand in rising order.
    pub rising: Option<usize>,
}

const IN_A_ROW: usize = 8;
/// From filter to filter, and from row to row.
pub const PITCH: f64 = 150.0;
const ROW: f64 = 200.0;
/// The first splitter.
const LEFT: f64 = 126.0;
const TOP: f64 = 86.0;
pub const SPLITTER: f64 = 13.0;
/// The kernel below the splitters.
pub const KERNEL: f64 = 98.0;
const KERNEL_HEIGHT: f64 = 28.0;
/// A beam reaches beyond its outer filters.
const BEAM: f64 = 60.0;
/// The kernel's upright part, which joins its rows.
const SPINE: f64 = 24.0;
const SPINE_WIDTH: f64 = 18.0;
/// The least width of a page, and the width that texts may widen it to.
const NARROW: f64 = 480.0;
const WIDE: f64 = 1100.0;

pub fn chain(picture: &ChainPicture) -> String {
    let mut page = Page::new(page_width(picture), picture.title);
    *page.body() += "<defs><marker id=\"arrow\" markerWidth=\"8\" markerHeight=\"8\" refX=\"7\" \
                     refY=\"3\" orient=\"auto\"><path d=\"M0,0l7,3l-7,3z\"/></marker></defs>\n";
    draw_kernel(&mut page, picture);
    draw_kernel_name(&mut page, picture);
    page.label(Label::at(BORDER, TOP + 4.0, "cells"));
    arrow(&mut page, &format!("M52,{TOP}H{}", LEFT - SPLITTER));
    for (k, offset) in picture.offsets.iter().enumerate() {
        draw_splitter(&mut page, k);
        draw_filter(&mut page, picture, k, offset);
    }
    for k in 1..picture.offsets.len() {
        draw_fifo(&mut page, picture, k - 1);
    }
    let bottom = draw_words(&mut page, picture);
    page.finish(bottom)
}

fn rows(picture: &ChainPicture) -> usize {
    picture.offsets.len().div_ceil(IN_A_ROW).max(1)
}

/// The splitter of a filter.
pub fn place(k: usize) -> (f64, f64) {
    let (row, column) = (k / IN_A_ROW, k % IN_A_ROW);
    (LEFT + column as f64 * PITCH, TOP + row as f64 * ROW)
}

/// The last splitter of a row.
fn last_of_row(picture: &ChainPicture, row: usize) -> (f64, f64) {
    let end = picture.offsets.len().min((row + 1) * IN_A_ROW);
    place(end.saturating_sub(1).max(row * IN_A_ROW))
}

fn page_width(picture: &ChainPicture) -> f64 {
    let (widest, _) = last_of_row(picture, 0);
    let texts = title_width(picture.title).max(width(picture.note, SMALL));
    (widest + 190.0).max(2.0 * BORDER + texts.clamp(NARROW, WIDE))
}

pub fn arrow(page: &mut Page, path: &str) {
    let look = "fill=\"none\" stroke=\"#000\" marker-end=\"url(#arrow)\"";
    *page.body() += &format!("<path d=\"{path}\" {look}/>\n");
}

/// One body: a beam below each row of filters, joined by the spine.
fn draw_kernel(page: &mut Page, picture: &ChainPicture) {
    let rows = rows(picture);
    let start = if rows > 1 { SPINE } else { LEFT - BEAM };
    let mut path = format!("M{start},{}", TOP + KERNEL);
    for row in 0..rows {
        let (x, y) = last_of_row(picture, row);
        let (right, top) = (x + BEAM, y + KERNEL);
        let back = if row + 1 < rows {
            SPINE + SPINE_WIDTH
        } else {
            start
        };
        path += &format!("V{top}H{right}v{KERNEL_HEIGHT}H{back}");
    }
    *page.body() += &format!("<path d=\"{path}z\" fill=\"#eee\" stroke=\"#000\"/>\n");
    let (x, y) = last_of_row(picture, rows - 1);
    let (x, y) = (x + BEAM, y + KERNEL + KERNEL_HEIGHT / 2.0);
    arrow(page, &format!("M{x},{y}h36"));
    page.label(Label::at(x + 42.0, y + 4.0, "firings"));
}

/// The kernel's name in its first beam.
fn draw_kernel_name(page: &mut Page, picture: &ChainPicture) {
    let (right, _) = last_of_row(picture, 0);
    let words = format!("kernel {}", picture.kernel);
    let room = right - LEFT + 2.0 * BEAM - 12.0;
    let middle = Label::at((LEFT + right) / 2.0, TOP + KERNEL + 18.0, &words).middle();
    page.label(middle.size(fitted(&words, 12.0, room)).room(room));
}

/// The size at which a text has room, but not below what can be read.
pub fn fitted(text: &str, size: f64, room: f64) -> f64 {
    (room / width(text, 1.0)).clamp(7.0, size)
}

/// The note, and what the colours say; answers where the page ends.
fn draw_words(page: &mut Page, picture: &ChainPicture) -> f64 {
    let bottom = TOP + (rows(picture) - 1) as f64 * ROW + KERNEL + KERNEL_HEIGHT;
    let colour = if picture.bad { RED } else { BLACK };
    let room = page.width() - 2.0 * BORDER;
    let note = Label::at(BORDER, bottom + 28.0, picture.note);
    page.label(note.colour(colour).room(room));
    let stores = || (1..picture.offsets.len()).map(|k| store(picture, k - 1));
    let mut key = Key::at(bottom + 42.0);
    if stores().any(|store| matches!(store, Store::Short(_))) {
        key.add(page, Some(LIGHT_RED), "red: too few places");
    }
    if stores().any(|store| matches!(store, Store::Larger(_))) {
        key.add(page, Some(LIGHT_AMBER), "amber: more places than needed");
    }
    key.bottom()
}
