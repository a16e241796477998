//! The centres of bins along one column of a log.

use super::decimal::{decimal, MOST_DIGITS};
use crate::csv::excerpt;

pub(super) const MOST_BINS: usize = 1 << 20;

/// Equal steps from the first centre to the last, up or down. Numbers are whole: the decimal ones times a power of ten.
#[derive(Clone, Debug, PartialEq, Eq)]
pub struct Axis {
    pub name: String,
    first: i64,
    step: i64,
    count: usize,
    decimals: u32,
}

impl Axis {
    /// The axis that `NAME=FIRST:LAST:STEP` says, or what is wrong with it.
    pub fn parse(text: &str) -> Result<Axis, String> {
        let wrong = |what: &str| format!("{} {what}", excerpt(text));
        let shape = || wrong("is not NAME=FIRST:LAST:STEP");
        let (name, numbers) = text.rsplit_once('=').ok_or_else(shape)?;
        let numbers: Vec<&str> = numbers.split(':').collect();
        let [first, last, step] = numbers[..] else {
            return Err(shape());
        };
        let (first, last, step) = (decimal(first)?, decimal(last)?, decimal(step)?);
        let decimals = first.decimals.max(step.decimals);
        let (Some(first), Some(step)) = (first.scaled(decimals), step.scaled(decimals)) else {
            return Err(wrong(&format!(
                "has a number of more than {MOST_DIGITS} digits"
            )));
        };
        let last = last.scaled(decimals);
        let Some(steps) = last.and_then(|last| whole_steps(first, last, step)) else {
            return Err(wrong("has no whole number of steps from FIRST to LAST"));
        };
        let count = usize::try_from(steps).map_or(usize::MAX, |steps| steps.saturating_add(1));
        if count > MOST_BINS {
            return Err(wrong(&format!("has more than {MOST_BINS} centres")));
        }
        let name = name.trim().to_string();
        Ok(Axis {
            name,
            first,
            step,
            count,
            decimals,
        })
    }

    pub fn count(&self) -> usize {
        self.count
    }

    /// A centre's text, with as many decimals as the first and the step were written with.
    pub(super) fn label(&self, place: usize) -> String {
        let centre = self.centre(place);
        let sign = if centre < 0 { "-" } else { "" };
        let unit = 10u64.pow(self.decimals);
        let (whole, part) = (centre.unsigned_abs() / unit, centre.unsigned_abs() % unit);
        match self.decimals {
            0 => format!("{sign}{whole}"),
            decimals => format!("{sign}{whole}.{part:0width$}", width = decimals as usize),
        }
    }

    fn centre(&self, place: usize) -> i64 {
        self.first + place as i64 * self.step
    }

    /// The bounds of the bins, rising: one below each bin, and one above the last. Each is the f64 next to the exact
    /// bound, so a number that is written like the bound is read as equal to it.
    pub(super) fn bounds(&self) -> Bounds {
        let lowest = self.centre(0).min(self.centre(self.count - 1));
        let step = self.step.abs();
        let unit = 2 * 10i64.pow(self.decimals);
        let bound = |place: usize| 2 * lowest - step + 2 * step * place as i64;
        Bounds {
            rising: (0..=self.count)
                .map(|place| bound(place) as f64 / unit as f64)
                .collect(),
            falls: self.step < 0,
        }
    }
}

fn whole_steps(first: i64, last: i64, step: i64) -> Option<i64> {
    let way = last - first;
    let fits = step != 0 && way % step == 0 && way / step >= 0;
    fits.then(|| way / step)
}

pub(super) struct Bounds {
    rising: Vec<f64>,
    falls: bool,
}

impl Bounds {
    /// The bin of a number: its lower bound is counted in, its upper one not.
    pub fn place(&self, number: f64) -> Option<usize> {
        let below = self.rising.partition_point(|&bound| bound <= number);
        let last = self.rising.len() - 2;
        let place = below.checked_sub(1).filter(|&place| place <= last)?;
        Some(if self.falls { last - place } else { place })
    }
}

#[cfg(test)]
mod tests {
    use super::*;

    fn axis(text: &str) -> Axis {
        Axis::parse(text).expect("a good axis")
    }

    fn labels(text: &str) -> Vec<String> {
        let axis = axis(text);
        (0..axis.count()).map(|place| axis.label(place)).collect()
    }

    #[test]
    fn centres_and_labels() {
        assert_eq!(axis(" load =5:100:5").name, "load");
        assert_eq!(axis("a=b=5:100:5").name, "a=b");
        assert_eq!(axis("load=5:100:5").count(), 20);
        assert_eq!(labels("x=600:700:50"), ["600", "650", "700"]);
        assert_eq!(
            labels("x=-0.5:0.50:0.25"),
            ["-0.50", "-0.25", "0.00", "0.25", "0.50"]
        );
        assert_eq!(labels("x=0.1:0.4:0.1"), ["0.1", "0.2", "0.3", "0.4"]);
        assert_eq!(labels("x=1:0.5:-0.5"), ["1.0", "0.5"]);
        assert_eq!(labels("x=7:7.000:3"), ["7"]);
        assert_eq!(axis("x=1:1048576:1").count(), 1_048_576);
    }

    #[test]
    fn what_is_no_axis() {
        let fault = |text: &str| Axis::parse(text).unwrap_err();
        for text in [
            "",
            "load",
            "load=",
            "load=5:100",
            "load=5:100:5:5",
            "5:100:5",
        ] {
            assert_eq!(
                fault(text),
                format!("\"{text}\" is not NAME=FIRST:LAST:STEP")
            );
        }
        for text in [
            "",
            "x",
            "1e3",
            "1,5",
            ".",
            "-",
            "--1",
            "1.2.3",
            "1234567890123456",
            "inf",
        ] {
            assert_eq!(
                fault(&format!("a={text}:100:5")),
                format!("\"{text}\" is not a number of at most 15 digits, such as 12.5")
            );
        }
        for text in [
            "a=5:99:5",
            "a=5:0:5",
            "a=5:5:0",
            "a=0:1.05:0.1",
            "a=0:100:-5",
            "a=0:1:2",
        ] {
            assert_eq!(
                fault(text),
                format!("\"{text}\" has no whole number of steps from FIRST to LAST")
            );
        }
        assert_eq!(
            fault("a=1:1048577:1"),
            "\"a=1:1048577:1\" has more than 1048576 centres"
        );
        assert_eq!(
            fault("a=0:999999999999999:1"),
            "\"a=0:999999999999999:1\" has more than 1048576 centres"
        );
        assert_eq!(
            fault("a=100000000000:200000000000:0.00001"),
            "\"a=100000000000:200000000000:0.00001\" has a number of more than 15 digits"
        );
    }

    #[test]
    fn half_a_step_below_a_centre_counts_and_half_a_step_above_does_not() {
        let bounds = axis("x=0.1:0.9:0.1").bounds();
        let expected = [
            ("0.05", Some(0)),
            ("0.04999", None),
            ("0.14999", Some(0)),
            ("0.15", Some(1)),
            ("0.25", Some(2)),
            ("0.35", Some(3)),
            ("0.45", Some(4)),
            ("0.55", Some(5)),
            ("0.65", Some(6)),
            ("0.75", Some(7)),
            ("0.85", Some(8)),
            ("0.94999", Some(8)),
            ("0.95", None),
            ("1e300", None),
            ("-1e300", None),
        ];
        for (text, place) in expected {
            let number: f64 = text.parse().expect("a number");
            assert_eq!(bounds.place(number), place, "{text}");
        }
    }

    #[test]
    fn a_falling_axis_has_the_same_bins() {
        let bounds = axis("x=30:10:-10").bounds();
        let places = [4.9, 5.0, 14.9, 15.0, 25.0, 34.9, 35.0].map(|number| bounds.place(number));
        assert_eq!(
            places,
            [None, Some(2), Some(2), Some(1), Some(0), Some(0), None]
        );
    }
}
