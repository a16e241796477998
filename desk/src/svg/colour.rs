//! Colours for values: viridis, and blue, white, red for changes.

use super::heat::Scale;
use std::fmt;

#[derive(Clone, Copy, Debug, PartialEq, Eq)]
pub struct Colour(pub u8, pub u8, pub u8);

pub const OUTSIDE: Colour = Colour(255, 255, 255);
pub const RIM: Colour = Colour(190, 190, 190);
pub const NO_NUMBER: Colour = Colour(255, 0, 255);

const VIRIDIS: &[Colour] = &[
    Colour(68, 1, 84),
    Colour(71, 45, 123),
    Colour(59, 82, 139),
    Colour(44, 114, 142),
    Colour(33, 144, 140),
    Colour(39, 173, 129),
    Colour(93, 200, 99),
    Colour(170, 220, 50),
    Colour(253, 231, 37),
];

const BLUE_WHITE_RED: &[Colour] = &[
    Colour(33, 102, 172),
    Colour(146, 197, 222),
    Colour(247, 247, 247),
    Colour(244, 165, 130),
    Colour(178, 24, 43),
];

impl fmt::Display for Colour {
    fn fmt(&self, out: &mut fmt::Formatter) -> fmt::Result {
        write!(out, "#{:02x}{:02x}{:02x}", self.0, self.1, self.2)
    }
}

/// The colours of a scale, from its lowest value to its highest.
pub struct Ramp {
    pub name: &'static str,
    pub stops: &'static [Colour],
    /// Lowest and highest value; none where the scale has no such numbers.
    pub range: Option<(f64, f64)>,
}

impl Ramp {
    pub fn of(scale: &Scale) -> Ramp {
        match *scale {
            Scale::Values { low, high } => Ramp {
                name: "values",
                stops: VIRIDIS,
                range: range(low, high),
            },
            Scale::Change { most } => Ramp {
                name: "change",
                stops: BLUE_WHITE_RED,
                range: range(-most.abs(), most.abs()),
            },
        }
    }

    /// Where a value lies, from 0 to 1: in the middle if the scale has no extent.
    pub fn position(&self, value: f32) -> f64 {
        match self.range {
            Some((low, high)) if low < high => {
                ((f64::from(value) - low) / (high - low)).clamp(0.0, 1.0)
            }
            _ => 0.5,
        }
    }

    /// The colour at a position from 0 to 1.
    pub fn colour(&self, position: f64) -> Colour {
        let last = self.stops.len() - 1;
        let place = position.clamp(0.0, 1.0) * last as f64;
        let stop = (place as usize).min(last - 1);
        mix(self.stops[stop], self.stops[stop + 1], place - stop as f64)
    }
}

fn range(low: f32, high: f32) -> Option<(f64, f64)> {
    let good = low.is_finite() && high.is_finite() && low <= high;
    good.then_some((f64::from(low), f64::from(high)))
}

fn mix(from: Colour, to: Colour, share: f64) -> Colour {
    let part = |from: u8, to: u8| {
        let (from, to) = (f64::from(from), f64::from(to));
        (from + (to - from) * share).round() as u8
    };
    Colour(part(from.0, to.0), part(from.1, to.1), part(from.2, to.2))
}

#[cfg(test)]
mod tests {
    use super::*;

    fn at(scale: Scale, value: f32) -> String {
        let ramp = Ramp::of(&scale);
        ramp.colour(ramp.position(value)).to_string()
    }

    #[test]
    fn viridis() {
        let scale = |value| {
            at(
                Scale::Values {
                    low: 10.0,
                    high: 26.0,
                },
                value,
            )
        };
        assert_eq!(scale(10.0), "#440154");
        assert_eq!(scale(12.0), "#472d7b");
        // Between (68, 1, 84) and (71, 45, 123).
        assert_eq!(scale(11.0), "#461768");
        assert_eq!(scale(18.0), "#21908c");
        assert_eq!(scale(26.0), "#fde725");
        assert_eq!(scale(-1e30), "#440154");
        assert_eq!(scale(1e30), "#fde725");
    }

    #[test]
    fn change() {
        let scale = |value| at(Scale::Change { most: 0.5 }, value);
        assert_eq!(scale(-0.5), "#2166ac");
        assert_eq!(scale(-0.25), "#92c5de");
        assert_eq!(scale(0.0), "#f7f7f7");
        assert_eq!(scale(0.25), "#f4a582");
        assert_eq!(scale(0.5), "#b2182b");
        assert_eq!(at(Scale::Change { most: -2.0 }, 2.0), "#b2182b");
    }

    #[test]
    fn scales_without_an_extent() {
        let odd = [f32::NAN, f32::INFINITY, f32::NEG_INFINITY];
        for low in odd {
            assert_eq!(at(Scale::Values { low, high: 1.0 }, 1.0), "#21908c");
            assert_eq!(
                at(
                    Scale::Values {
                        low: 1.0,
                        high: low
                    },
                    1.0
                ),
                "#21908c"
            );
            assert_eq!(at(Scale::Change { most: low }, 1.0), "#f7f7f7");
        }
        assert_eq!(
            at(
                Scale::Values {
                    low: 7.0,
                    high: 7.0
                },
                7.0
            ),
            "#21908c"
        );
        assert_eq!(
            at(
                Scale::Values {
                    low: 8.0,
                    high: 7.0
                },
                7.0
            ),
            "#21908c"
        );
        assert_eq!(at(Scale::Change { most: 0.0 }, 0.0), "#f7f7f7");
    }

    #[test]
    fn the_widest_scale() {
        let scale = |value| {
            at(
                Scale::Values {
                    low: f32::MIN,
                    high: f32::MAX,
                },
                value,
            )
        };
        assert_eq!(scale(f32::MIN), "#440154");
        assert_eq!(scale(0.0), "#21908c");
        assert_eq!(scale(f32::MAX), "#fde725");
    }
}
