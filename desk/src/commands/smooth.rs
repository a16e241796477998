use crate::arguments::Arguments;
use crate::commands::draw::drawable;
use crate::csv::Map;
use crate::fault::Result;
use crate::files;
use crate::grid::Grid;
use crate::place::{self, Ran};
use crate::request::{kernel_name, Parts};
use crate::results::Results;
use crate::smoothing::{self, Shown, Smoothed};
use crate::{maps, sheet};
use zohmirka::Chain;

pub fn run(arguments: &Arguments) -> Result<()> {
    let name = &arguments.operands[0];
    let shown = files::shown(name);
    let (form, parts) = (smoothing::form(arguments)?, Parts::asked(arguments)?);
    let map = maps::read_csv(name, arguments)?;
    let request = parts.on(&Grid::of_map(&map))?;
    let chain = request
        .plan()
        .map_err(|refusal| sheet::refused_options(&request.sheet(), refusal))?;
    smoothing::expect_one_word("smooth", &chain)?;
    let (after, ran) = smoothed(&chain, &map)?;
    let mut results = Results::new();
    results.add(arguments.value("-o").unwrap_or("-"), after.csv(&form));
    if let Some(file) = arguments.value("--svg") {
        drawable(map.height(), map.width())?;
        results.add(file, picture(shown, &chain, &map, &after));
    }
    results.finish()?;
    let done = smoothing::done(&chain, &map, ran, &form);
    files::note(&format!("{shown}: {done}"));
    smoothing::remarks(shown, &chain, &after);
    Ok(())
}

/// Runs a chain of one word a firing over a map of its own grid.
pub fn smoothed<'a>(chain: &Chain, map: &'a Map) -> Result<(Smoothed<'a>, Ran)> {
    let mut results = Vec::new();
    let ran = place::run(chain, map.cells(), |firing| results.push(firing[0]));
    let ran = smoothing::finished(ran)?;
    let positions = smoothing::positions("smooth", chain, map)?;
    Ok((Smoothed::of(map, &positions, &results), ran))
}

/// Before, after and change.
fn picture(name: &str, chain: &Chain, map: &Map, after: &Smoothed) -> String {
    let kernel = kernel_name(chain.kernel());
    let title = format!("{name}: {} rows of {}, {kernel}", map.height(), map.width());
    let shown = Shown {
        after,
        title: "after",
        change: "change",
    };
    smoothing::picture(&title, map, &[shown])
}
