use crate::arguments::Arguments;
use crate::csv::Writer;
use crate::fault::{trouble, Fault, Result};
use crate::files;
use crate::grid::Grid;
use crate::maps::{self, Map};
use crate::place::{self, End, Iterations, Ran};
use crate::results::Results;
use crate::sheet::{self, Kind};
use crate::verdict;
use crate::wording::count;
use std::fmt::Write;
use zohmirka::Chain;

pub fn run(arguments: &Arguments) -> Result<()> {
    let (chain_name, map_name) = (&arguments.operands[0], &arguments.operands[1]);
    if chain_name == "-" && map_name == "-" {
        return trouble("run: standard input can be the chain or the map, not both");
    }
    let sheet = files::read(chain_name)?;
    let shown = files::shown(chain_name);
    let chain = Chain::read(&sheet)
        .map_err(|refusal| sheet::refused(shown, &sheet, Kind::Chain, refusal))?;
    let map = maps::read(map_name, arguments)?;
    fits(&chain, &map)?;
    let (dialect, kind) = match &map {
        Map::Csv(map) => (*map.dialect(), map.kind()),
        Map::Lines(_) => maps::dialect(arguments)?,
    };

    let mut words = Vec::new();
    let refused = |refusal| Fault::No(format!("{shown}: {refusal}"));
    let ran = place::run(&chain, map.cells(), |firing| {
        words.extend_from_slice(firing)
    })
    .map_err(refused)?;
    let text = if arguments.has("--csv") {
        let iterations = place::iterations(&chain, map.cells().len()).map_err(refused)?;
        let shown = words.iter().map(|&word| dialect.shown(word, kind, None));
        table(&chain, Writer::new(dialect), &iterations, shown)
    } else {
        lines(&chain, ran, &words)
    };
    Results::write(arguments.value("-o"), text)?;
    ended(shown, &sheet, ran)
}

/// Whether a table has the rows and columns of the chain's grid; cells in lines fit any grid.
fn fits(chain: &Chain, map: &Map) -> Result<()> {
    let Map::Csv(map) = map else {
        return Ok(());
    };
    let grid = Grid::of_chain(chain);
    if grid.dimensions() != 2 {
        let dims = grid.dimensions();
        return trouble(format!(
            "a map in CSV has two dimensions and the chain's grid {dims}; its cells are 05 lines"
        ));
    }
    grid.expect_of_map("chain's", map)
}

/// What the program `run` writes.
fn lines(chain: &Chain, ran: Ran, words: &[u32]) -> Vec<u8> {
    let mut text = String::new();
    for (index, firing) in words.chunks_exact(chain.width()).enumerate() {
        let _ = write!(text, "10{index:08X}");
        firing.iter().for_each(|word| {
            let _ = write!(text, "{word:08X}");
        });
        text.push('\n');
    }
    let end = match ran.end {
        End::Done => 0,
        End::Stalled => 1,
        End::Starved => 2,
    };
    text += &format!("11{end:02X}{:08X}\n", ran.clocks);
    text.into_bytes()
}

/// A line for each firing: the indices of its iteration, then its words.
fn table(
    chain: &Chain,
    mut writer: Writer,
    iterations: &Iterations,
    mut words: impl Iterator<Item = String>,
) -> Vec<u8> {
    let width = chain.width();
    let indices = match chain.dimensions() {
        2 => vec!["row".to_string(), "column".into()],
        dimensions => numbered("index", dimensions),
    };
    let mut line = |fields: Vec<String>| {
        fields.iter().for_each(|field| writer.field(field));
        writer.end_line();
    };
    line([indices, numbered("word", width)].concat());
    for iteration in iterations.iter() {
        let indices = iteration.iter().map(i32::to_string);
        line(indices.chain(words.by_ref().take(width)).collect());
    }
    writer.into_bytes()
}

/// The names of so many columns; one alone has no number.
fn numbered(name: &str, count: usize) -> Vec<String> {
    match count {
        1 => vec![name.to_string()],
        _ => (0..count).map(|at| format!("{name} {at}")).collect(),
    }
}

/// Stalled and starved are the library's no.
fn ended(name: &str, sheet: &[u8], ran: Ran) -> Result<()> {
    let firings = count(ran.firings as usize, "firing");
    let after = format!(
        "after {} and {firings}",
        count(ran.clocks as usize, "clock")
    );
    match ran.end {
        End::Done => {
            files::note(&format!("{name}: done {after}"));
            Ok(())
        }
        End::Starved => Err(Fault::No(format!(
            "{name}: starved {after}: the map has too few cells"
        ))),
        End::Stalled => {
            let words = verdict::check(name, sheet)?.words();
            Err(Fault::No(format!("{name}: stalled {after}\n  {words}")))
        }
    }
}
