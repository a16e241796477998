//! Two kernels on one chain.

mod requests;

use crate::arguments::Arguments;
use crate::commands::draw::drawable;
use crate::csv::Map;
use crate::fault::{trouble, Result};
use crate::place::{self, Ran};
use crate::request::kernel_name;
use crate::results::Results;
use crate::smoothing::{self, Shown, Smoothed};
use crate::{files, maps, sheet};
use requests::Side;
use zohmirka::Pair;

pub fn run(arguments: &Arguments) -> Result<()> {
    let names = &arguments.operands;
    if names.iter().filter(|name| *name == "-").count() > 1 {
        return trouble("pair: standard input can be one of the requests or the map, not two");
    }
    let form = smoothing::form(arguments)?;
    let sides = [Side::read(&names[0])?, Side::read(&names[1])?];
    let pair = requests::plan(&sides)?;
    let map = maps::read_on(&sides[0].grid(), "requests'", &names[2], arguments)?;
    let (after, ran) = both(&pair, &map)?;

    let shown = files::shown(&names[2]);
    let mut results = Results::new();
    let maps = after.each_ref().map(|after| after.csv(&form));
    add_maps(&mut results, arguments, maps);
    if let Some(file) = arguments.value("--svg") {
        drawable(map.height(), map.width())?;
        results.add(file, picture(shown, &map, &sides, &after));
    }
    results.finish()?;
    let done = smoothing::done(&pair.chain, &map, ran, &form);
    files::note(&format!("{shown}: {done}, one trip for both"));
    for (side, after) in sides.iter().zip(&after) {
        smoothing::remarks(side.name, &side.chain, after);
    }
    Ok(())
}

/// Runs a pair of one word a firing each over a map of its own grid.
pub fn both<'a>(pair: &Pair, map: &'a Map) -> Result<([Smoothed<'a>; 2], Ran)> {
    let mut results = [Vec::new(), Vec::new()];
    let ran = place::run_pair(pair, map.cells(), |first, second| {
        results[0].push(first[0]);
        results[1].push(second[0]);
    });
    let ran = smoothing::finished(ran)?;
    let positions = smoothing::positions("pair", &pair.chain, map)?;
    let after = results.map(|results| Smoothed::of(map, &positions, &results));
    Ok((after, ran))
}

/// Each map goes to its own file, or both to standard output.
fn add_maps(results: &mut Results, arguments: &Arguments, [first, second]: [Vec<u8>; 2]) {
    let file = |name| arguments.value(name).unwrap_or("-");
    match (file("-o"), file("--second")) {
        ("-", "-") => results.add("-", joined(&first, &second)),
        (one, other) => {
            results.add(one, first);
            results.add(other, second);
        }
    }
}

/// A map below another, behind an empty line and without a byte order mark of its own.
fn joined(first: &[u8], second: &[u8]) -> Vec<u8> {
    let crlf = first.ends_with(b"\r\n");
    let empty: &[u8] = if crlf { b"\r\n" } else { b"\n" };
    let bare = second.strip_prefix(sheet::BYTE_ORDER_MARK);
    [first, empty, bare.unwrap_or(second)].concat()
}

/// Before, both results and both changes.
fn picture(name: &str, map: &Map, sides: &[Side; 2], after: &[Smoothed; 2]) -> String {
    let names = format!("first {}, second {}", sides[0].name, sides[1].name);
    let title = format!("{name}: {} rows of {}; {names}", map.height(), map.width());
    let kernel = |side: &Side| kernel_name(side.chain.kernel());
    let shown = [
        Shown {
            after: &after[0],
            title: &format!("first: {}", kernel(&sides[0])),
            change: "first: change",
        },
        Shown {
            after: &after[1],
            title: &format!("second: {}", kernel(&sides[1])),
            change: "second: change",
        },
    ];
    smoothing::picture(&title, map, &shown)
}
