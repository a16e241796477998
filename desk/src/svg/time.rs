//! A run clock by clock: cells taken, firings, and how full each FIFO is.

use super::axis::round_step;
use super::bars::{few_bars, Bar, Lane};
use super::page::{title_width, Area, Coordinate, Label, Page, BORDER, SMALL};
use super::text::width;
use std::fmt::Write;

/// What happened in a clock, and how many cells each FIFO held after it.
#[derive(Clone, Debug)]
pub struct Clock {
    pub took: bool,
    pub fired: bool,
    pub levels: Vec<u32>,
}

pub struct Timeline<'a> {
    pub title: &'a str,
    /// The number of the first clock drawn.
    pub first: u64,
    /// Of each FIFO in turn.
    pub capacities: &'a [u32],
    pub clocks: &'a [Clock],
    /// A line below the picture, such as how the run ended.
    pub note: &'a str,
}

/// The longest lane, and the widest clock.
const LONGEST: f64 = 960.0;
const WIDEST: f64 = 14.0;
/// The first lane, and from lane to lane.
const TOP: f64 = 66.0;
const LANE: f64 = 26.0;
const LANE_HEIGHT: f64 = 18.0;
/// The least height of a bar: a FIFO with few cells is not taken for an empty one.
const LEAST_HEIGHT: f64 = 1.0;
/// Clocks at least so wide are parted by lines.
const PARTED: f64 = 4.0;
/// The least width of a page, and the width that texts may widen it to.
const NARROW: f64 = 360.0;
const WIDE: f64 = 900.0;

pub fn time(timeline: &Timeline) -> String {
    let picture = Picture::of(timeline);
    let mut page = Page::new(picture.page_width(), timeline.title);
    for lane in 0..picture.lanes.len() {
        picture.draw_lane(&mut page, lane);
    }
    picture.draw_lines(&mut page);
    picture.draw_numbers(&mut page);
    let bottom = picture.draw_words(&mut page);
    page.finish(bottom)
}

struct Picture<'a> {
    timeline: &'a Timeline<'a>,
    lanes: Vec<Lane>,
    bars: Vec<Vec<Bar>>,
    /// So many clocks are drawn as one.
    group: usize,
    /// Where the first clock begins, and the width of a clock.
    left: f64,
    pitch: f64,
}

impl<'a> Picture<'a> {
    fn of(timeline: &'a Timeline<'a>) -> Picture<'a> {
        let capacities = timeline.capacities.iter().enumerate();
        let levels = capacities.map(|(k, places)| Lane::Level(k, *places));
        let lanes: Vec<Lane> = [Lane::Taken, Lane::Firing]
            .into_iter()
            .chain(levels)
            .collect();
        let (group, bars) = few_bars(timeline.clocks, &lanes);
        let names = lanes.iter().map(|lane| width(&lane.name(), SMALL));
        Picture {
            timeline,
            bars,
            group,
            left: BORDER + names.fold(0.0, f64::max) + 8.0,
            pitch: (LONGEST / timeline.clocks.len() as f64).min(WIDEST),
            lanes,
        }
    }

    fn number(&self, clock: usize) -> u64 {
        self.timeline.first.saturating_add(clock as u64)
    }

    fn lane_width(&self) -> f64 {
        self.pitch * self.timeline.clocks.len() as f64
    }

    /// The room of the widest clock number.
    fn number_room(&self) -> f64 {
        let last = self.number(self.timeline.clocks.len());
        width(&last.to_string(), SMALL)
    }

    fn page_width(&self) -> f64 {
        let texts = title_width(self.timeline.title).max(width(self.timeline.note, SMALL));
        let lanes = self.left + self.lane_width() + self.number_room() / 2.0 + BORDER;
        lanes.max(2.0 * BORDER + texts.clamp(NARROW, WIDE))
    }

    fn draw_lane(&self, page: &mut Page, number: usize) {
        let lane = self.lanes[number];
        let y = TOP + number as f64 * LANE;
        page.label(Label::at(self.left - 8.0, y + 13.0, &lane.name()).end());
        let ground = Area {
            x: self.left,
            y,
            width: self.lane_width(),
            height: LANE_HEIGHT,
        };
        page.area(&ground, "fill=\"#f2f2f2\"");
        let _ = writeln!(
            page.body(),
            "<g transform=\"translate({},{}) scale({},1)\" fill=\"{}\">",
            Coordinate(self.left),
            Coordinate(y),
            self.pitch,
            lane.colour()
        );
        for bar in &self.bars[number] {
            let height = (lane.share(bar.value) * LANE_HEIGHT).max(LEAST_HEIGHT);
            let _ = writeln!(
                page.body(),
                "<rect x=\"{}\" y=\"{}\" width=\"{}\" height=\"{}\"><title>{}</title></rect>",
                bar.start,
                Coordinate(LANE_HEIGHT - height),
                bar.end - bar.start,
                Coordinate(height),
                self.words(lane, bar)
            );
        }
        *page.body() += "</g>\n";
    }

    fn words(&self, lane: Lane, bar: &Bar) -> String {
        let (first, last) = (self.number(bar.start), self.number(bar.end - 1));
        let clocks = if first == last {
            format!("clock {first}")
        } else {
            format!("clocks {first} to {last}")
        };
        let name = lane.name();
        match (lane, self.group) {
            (Lane::Level(_, places), 1) => format!("{clocks}: {} of {places}", bar.value),
            (Lane::Level(_, places), _) => format!("{clocks}: at most {} of {places}", bar.value),
            (_, 1) => format!("{clocks}: {name}"),
            (_, group) => format!("{clocks}: {name}, at least once in {group} clocks"),
        }
    }

    /// Lines between the clocks, where they are wide enough.
    fn draw_lines(&self, page: &mut Page) {
        if self.pitch < PARTED {
            return;
        }
        let height = self.lanes.len() as f64 * LANE;
        let mut path = String::new();
        for clock in 1..self.timeline.clocks.len() {
            let x = self.left + clock as f64 * self.pitch;
            let _ = write!(path, "M{},{TOP}v{height}", Coordinate(x));
        }
        let look = "stroke=\"#fff\" pointer-events=\"none\"";
        let _ = writeln!(page.body(), "<path d=\"{path}\" {look}/>");
    }

    /// The numbers of round clocks, or of the first one.
    fn draw_numbers(&self, page: &mut Page) {
        let step = round_step((self.number_room() + 8.0) / self.pitch);
        let past = (self.timeline.first % step as u64) as usize;
        let round = if past == 0 { 0 } else { step - past };
        let count = self.timeline.clocks.len();
        let start = if round < count { round } else { 0 };
        for clock in (start..count).step_by(step) {
            let x = self.left + (clock as f64 + 0.5) * self.pitch;
            page.label(Label::at(x, TOP - 8.0, &self.number(clock).to_string()).middle());
        }
    }

    /// The note, and what is drawn as one; answers where the page ends.
    fn draw_words(&self, page: &mut Page) -> f64 {
        let mut y = TOP + self.lanes.len() as f64 * LANE + 16.0;
        let room = page.width() - 2.0 * BORDER;
        page.label(Label::at(BORDER, y, self.timeline.note).room(room));
        if self.group > 1 {
            y += 18.0;
            let words = format!(
                "{} clocks are drawn as one, with their highest levels",
                self.group
            );
            page.label(Label::at(BORDER, y, &words).room(room));
        }
        y + BORDER
    }
}
