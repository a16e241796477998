//! The lanes of a run over time, and their bars.

use super::time::Clock;

#[derive(Clone, Copy)]
pub enum Lane {
    Taken,
    Firing,
    /// FIFO k and its places.
    Level(usize, u32),
}

impl Lane {
    pub fn name(&self) -> String {
        match self {
            Lane::Taken => "cell taken".to_string(),
            Lane::Firing => "firing".to_string(),
            Lane::Level(k, places) => format!("FIFO {k} of {places}"),
        }
    }

    pub fn colour(&self) -> &'static str {
        match self {
            Lane::Taken => "#8ab",
            Lane::Firing => "#2a2",
            Lane::Level(..) => "#d92",
        }
    }

    pub fn value(&self, clock: &Clock) -> u32 {
        match *self {
            Lane::Taken => u32::from(clock.took),
            Lane::Firing => u32::from(clock.fired),
            Lane::Level(k, _) => clock.levels.get(k).copied().unwrap_or(0),
        }
    }

    /// The part of the lane that a value fills.
    pub fn share(&self, value: u32) -> f64 {
        match *self {
            Lane::Level(_, places) => (f64::from(value) / f64::from(places.max(1))).min(1.0),
            _ => 1.0,
        }
    }
}

/// Neighbouring clocks of one value.
pub struct Bar {
    pub start: usize,
    /// The clock after the last one.
    pub end: usize,
    pub value: u32,
}

/// A lane's bars, leaving out those of value 0. So many clocks are taken as one, which has the
/// highest of their values.
fn bars(clocks: &[Clock], lane: Lane, group: usize) -> Vec<Bar> {
    let mut bars: Vec<Bar> = Vec::new();
    for (number, clocks) in clocks.chunks(group).enumerate() {
        let value = clocks
            .iter()
            .map(|clock| lane.value(clock))
            .max()
            .unwrap_or(0);
        let start = number * group;
        let end = start + clocks.len();
        match bars.last_mut() {
            Some(last) if last.value == value => last.end = end,
            _ => bars.push(Bar { start, end, value }),
        }
    }
    bars.retain(|bar| bar.value > 0);
    bars
}

/// The most bars in a picture: if there would be more, neighbouring clocks are drawn as one.
const MOST_BARS: usize = 10_000;

/// The bars of all lanes, with the smallest group for which they are not too many.
pub fn few_bars(clocks: &[Clock], lanes: &[Lane]) -> (usize, Vec<Vec<Bar>>) {
    let mut group = 1;
    loop {
        let bars: Vec<Vec<Bar>> = lanes
            .iter()
            .map(|lane| bars(clocks, *lane, group))
            .collect();
        let count: usize = bars.iter().map(Vec::len).sum();
        if count <= MOST_BARS || group >= clocks.len() {
            return (group, bars);
        }
        group *= 2;
    }
}
