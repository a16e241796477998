//! Results at the cells of a map: what `smooth` and `pair` share.

mod picture;
mod report;

pub use picture::{picture, Shown};
pub use report::{done, remarks};

use crate::arguments::Arguments;
use crate::csv::{Form, Map, Rim};
use crate::fault::{trouble, Fault, Result};
use crate::place::{self, End, Ran};
use zohmirka::{Chain, Refusal};

/// How the options say that results are written.
pub fn form(arguments: &Arguments) -> Result<Form> {
    let rim = arguments.chosen("--rim", &[("empty", Rim::Empty), ("keep", Rim::Keep)])?;
    let digits = arguments.number("--digits")?;
    if digits.is_some_and(|digits| digits > 100) {
        return trouble("--digits: at most 100");
    }
    if arguments.value("--cells") == Some("u32") {
        arguments.without(&["--digits"], "cells are words")?;
    }
    Ok(Form {
        digits: digits.map(|digits| digits as usize),
        rim: rim.unwrap_or(Rim::Empty),
    })
}

/// A fault where a firing of a chain writes more than the one word that a cell has room for.
pub fn expect_one_word(place: &str, chain: &Chain) -> Result<()> {
    if chain.width() == 1 {
        return Ok(());
    }
    trouble(format!(
        "{place}: raw writes a word for each reference; difference, scaled or blend write one a cell"
    ))
}

/// A run that made every firing.
pub fn finished(ran: std::result::Result<Ran, Refusal>) -> Result<Ran> {
    let ran = ran.map_err(no)?;
    if ran.end != End::Done {
        return Err(Fault::No(format!(
            "the run ended {:?} after {} clocks",
            ran.end, ran.clocks
        )));
    }
    Ok(ran)
}

fn no(refusal: Refusal) -> Fault {
    Fault::No(refusal.to_string())
}

/// The position of the cell that the iteration of each firing names, in order. None is named outside the map.
pub fn positions(command: &str, chain: &Chain, map: &Map) -> Result<Vec<usize>> {
    let iterations = place::iterations(chain, map.cells().len()).map_err(no)?;
    let index = |index: i32| usize::try_from(index).ok();
    let position = |iteration: &[i32]| {
        let (row, column) = (iteration[0], iteration[1]);
        let place = index(row).zip(index(column));
        place.and_then(|(i, j)| map.position(i, j)).ok_or_else(|| {
            Fault::Trouble(format!("{command}: the iteration of row {row}, column {column} lies outside the map; `zohmirka run --csv` lists it"))
        })
    };
    iterations.iter().map(position).collect()
}

/// The results of a map, each at the position of the cell that its iteration names.
pub struct Smoothed<'a> {
    map: &'a Map,
    words: Vec<Option<u32>>,
}

impl<'a> Smoothed<'a> {
    /// The results of firings, in order, at their positions.
    pub fn of(map: &'a Map, positions: &[usize], results: &[u32]) -> Smoothed<'a> {
        let mut words = vec![None; map.cells().len()];
        for (&position, &result) in positions.iter().zip(results) {
            words[position] = Some(result);
        }
        Smoothed { map, words }
    }

    pub fn word(&self, i: usize, j: usize) -> Option<u32> {
        self.words[self.map.position(i, j)?]
    }

    /// The map with these results in its cells.
    pub fn csv(&self, form: &Form) -> Vec<u8> {
        self.map.write(form, |i, j| self.word(i, j))
    }
}
