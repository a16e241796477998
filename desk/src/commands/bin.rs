use crate::arguments::Arguments;
use crate::bins::{self, Axis, Binned, Bins};
use crate::csv;
use crate::fault::{Fault, Result};
use crate::files;
use crate::maps;
use crate::results::Results;
use crate::wording::{count, grouped};

pub fn run(arguments: &Arguments) -> Result<()> {
    let axis = |name: &str, example: &str| {
        let text = arguments.needed(name, example)?;
        Axis::parse(text).map_err(|words| Fault::Trouble(format!("{name} {text:?}: {words}")))
    };
    let (rows, columns) = (
        axis("--rows", "load=5:100:5")?,
        axis("--columns", "rpm=600:2050:50")?,
    );
    let value = arguments.needed("--value", "torque")?;
    let least = arguments.number("--least")?.unwrap_or(1).max(1) as usize;
    let bins = Bins::new(rows, columns, value, least)
        .map_err(|words| Fault::Trouble(format!("bin: {words}")))?;
    let (delimiter, decimal) = maps::signs(arguments)?;
    let name = &arguments.operands[0];
    let at = |fault: csv::Fault| Fault::Trouble(format!("{}:{fault}", files::shown(name)));
    let table = csv::table(files::read(name)?, delimiter, decimal).map_err(at)?;
    let binned = bins::bin(&table, &bins).map_err(at)?;
    let note = note(&binned, least);
    Results::write(arguments.value("-o"), binned.csv)?;
    files::note(&format!("{}: {note}", files::shown(name)));
    Ok(())
}

/// What became of the log's lines.
fn note(binned: &Binned, least: usize) -> String {
    let lines = count(binned.used + binned.outside + binned.skipped, "line");
    let shown = |number: usize| grouped(number as u128);
    format!(
        "{lines}: {} in bins, {} outside, {} with an empty field; {} of {} bins have at least {}",
        shown(binned.used),
        shown(binned.outside),
        shown(binned.skipped),
        shown(binned.filled),
        shown(binned.bins),
        shown(least)
    )
}
