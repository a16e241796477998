//! Maps as a command is handed them: tables in CSV, or cells in `05` lines.
use crate::arguments::Arguments;
use crate::csv::{self, Asked, Axes, Cells, Dialect, Row};
use crate::fault::{trouble, Fault, Result};
use crate::files;
use crate::grid::Grid;
use crate::sheet;
use crate::wording::{count, grouped};

pub enum Map {
    Csv(csv::Map),
    Lines(Vec<u32>),
}

impl Map {
    pub fn cells(&self) -> &[u32] {
        match self {
            Map::Csv(map) => map.cells(),
            Map::Lines(cells) => cells,
        }
    }
}

/// The options that say how a table is to be read.
pub const CSV: &[&str] = &["--axes", "--slanted", "--fill"];

/// The options that say how fields and numbers are written.
pub const DIALECT: &[&str] = &["--delimiter", "--decimal", "--cells"];

/// A map in CSV, or cells in `05` lines: by its first line. Standard error says what was taken.
pub fn read(name: &str, arguments: &Arguments) -> Result<Map> {
    // The lines of `run --csv` are fields in a dialect, whatever the cells came in.
    let idle = if arguments.has("--csv") { &[] } else { DIALECT };
    read_beside(name, arguments, idle)
}

/// The same as a table on a grid of two dimensions: one in CSV has its rows and columns, and cells in `05` lines are laid
/// out on it, in the dialect that options name.
pub fn read_on(grid: &Grid, whose: &str, name: &str, arguments: &Arguments) -> Result<csv::Map> {
    let cells = match read_beside(name, arguments, &[])? {
        Map::Csv(map) => {
            grid.expect_of_map(whose, &map)?;
            return Ok(map);
        }
        Map::Lines(cells) => cells,
    };
    let row = |(start, length): (u32, u32)| Row {
        start: start as usize,
        length: length as usize,
    };
    let rows: Vec<Row> = grid
        .rows()
        .unwrap_or_default()
        .into_iter()
        .map(row)
        .collect();
    let asked: usize = rows.iter().map(|row| row.length).sum();
    let shown = files::shown(name);
    if cells.len() != asked {
        return trouble(format!(
            "{shown}: {}, and the {whose} grid has {}",
            count(cells.len(), "cell"),
            grouped(asked as u128)
        ));
    }
    let (dialect, kind) = dialect(arguments)?;
    let map = csv::Map::laid(rows, cells, dialect, kind);
    map.map_err(|fault| Fault::Trouble(format!("{shown}:{fault}")))
}

/// Reads a map; these options would play no part beside cells in `05` lines.
fn read_beside(name: &str, arguments: &Arguments, idle: &[&str]) -> Result<Map> {
    let bytes = files::read(name)?;
    if !is_lines(&bytes) {
        return table(name, bytes, arguments).map(Map::Csv);
    }
    arguments.without(&[CSV, idle].concat(), "the map is cells in 05 lines")?;
    let cells = lines(files::shown(name), &bytes)?;
    files::note(&format!(
        "{}: {} in 05 lines",
        files::shown(name),
        count(cells.len(), "cell")
    ));
    Ok(Map::Lines(cells))
}

/// A map in CSV. Standard error says what was taken.
pub fn read_csv(name: &str, arguments: &Arguments) -> Result<csv::Map> {
    let bytes = files::read(name)?;
    if is_lines(&bytes) {
        return trouble(format!(
            "{}: 05 lines have no rows and columns; a map in CSV is asked for",
            files::shown(name)
        ));
    }
    table(name, bytes, arguments)
}

fn table(name: &str, bytes: Vec<u8>, arguments: &Arguments) -> Result<csv::Map> {
    let map = csv::read(bytes, &asked(arguments)?);
    let map = map.map_err(|fault| Fault::Trouble(format!("{}:{fault}", files::shown(name))))?;
    files::note(&format!("{}: {}", files::shown(name), map.taken()));
    Ok(map)
}

/// How the options say that a map is to be read.
pub fn asked(arguments: &Arguments) -> Result<Asked> {
    let axes = Axes::ALL.map(|axes| (axes.name(), axes));
    let kinds = [("f32", Cells::F32), ("u32", Cells::U32)];
    let kind = arguments.chosen("--cells", &kinds)?.unwrap_or_default();
    let fill = match (arguments.value("--fill"), kind) {
        (None, _) => None,
        (Some("nan"), Cells::F32) => Some(f32::NAN.to_bits()),
        (Some(text), _) => Some(
            kind.word(text)
                .map_err(|wrong| Fault::Trouble(format!("--fill: {wrong}")))?,
        ),
    };
    let (delimiter, decimal) = signs(arguments)?;
    Ok(Asked {
        delimiter,
        decimal,
        axes: arguments.chosen("--axes", &axes)?,
        slanted: arguments.has("--slanted"),
        fill,
        cells: kind,
    })
}

/// The dialect and the kind of cells that options name, for a result that comes of no table.
pub fn dialect(arguments: &Arguments) -> Result<(Dialect, Cells)> {
    let (asked, usual) = (asked(arguments)?, Dialect::default());
    let dialect = Dialect {
        delimiter: asked.delimiter.unwrap_or(usual.delimiter),
        decimal: asked.decimal.unwrap_or(usual.decimal),
        ..usual
    };
    if dialect.delimiter == dialect.decimal {
        return trouble("--decimal ,: , parts the fields");
    }
    Ok((dialect, asked.cells))
}

/// The sign between fields and the decimal point, where the options name them.
pub fn signs(arguments: &Arguments) -> Result<(Option<u8>, Option<u8>)> {
    let delimiters = [(",", b','), (";", b';'), ("tab", b'\t'), ("\t", b'\t')];
    let delimiter = arguments.chosen("--delimiter", &delimiters)?;
    Ok((
        delimiter,
        arguments.chosen("--decimal", &[(".", b'.'), (",", b',')])?,
    ))
}

const DIGITS: usize = 10;

/// Whether the first line is that of a cell, or would be after `tidy`.
fn is_lines(bytes: &[u8]) -> bool {
    let text = bytes.strip_prefix(sheet::BYTE_ORDER_MARK).unwrap_or(bytes);
    let first = text
        .split(|&b| b == b'\n')
        .next()
        .unwrap_or(&[])
        .trim_ascii_end();
    first.len() == DIGITS && first.starts_with(b"05") && first.iter().all(u8::is_ascii_hexdigit)
}

/// The cells of `05` lines.
fn lines(name: &str, bytes: &[u8]) -> Result<Vec<u32>> {
    let mut cells = Vec::with_capacity(bytes.len() / (DIGITS + 1));
    for (before, line) in bytes.split_inclusive(|&b| b == b'\n').enumerate() {
        match cell(line) {
            Some(cell) => cells.push(cell),
            None => return Err(sheet::bad_cell(name, before + 1, line)),
        }
    }
    Ok(cells)
}

fn cell(line: &[u8]) -> Option<u32> {
    let digits = line.strip_suffix(b"\n")?.strip_prefix(b"05")?;
    let upper = digits.len() == DIGITS - 2
        && digits
            .iter()
            .all(|b| matches!(b, b'0'..=b'9' | b'A'..=b'F'));
    let text = std::str::from_utf8(digits).ok().filter(|_| upper)?;
    u32::from_str_radix(text, 16).ok()
}

/// A cell as an `05` line.
pub fn line(cell: u32) -> String {
    format!("05{cell:08X}\n")
}

#[cfg(test)]
mod tests {
    use super::*;

    #[test]
    fn cells_in_lines_are_told_from_tables() {
        assert!(is_lines(b"0500000001\n"));
        assert!(is_lines(b"\xEF\xBB\xBF05000000ff\r\nx"));
        for table in [
            "",
            "05",
            "0500000001,2\n",
            "05000000011\n",
            "0400000001\n",
            "050000000g\n",
        ] {
            assert!(!is_lines(table.as_bytes()), "{table}");
        }
    }

    #[test]
    fn each_line_is_one_cell_or_a_fault() {
        assert_eq!(
            lines("a", b"0500000001\n05FFFFFFFF\n"),
            Ok(vec![1, u32::MAX])
        );
        for (text, at) in [
            ("0500000001\n0500000002", 2),
            ("05000000ff\n", 1),
            ("0500000001\n\n", 2),
            ("0500000001\r\n", 1),
            ("0500000001\n05000000010\n", 2),
            ("0500000001\n0400\n", 2),
        ] {
            let fault = lines("a", text.as_bytes()).unwrap_err();
            assert_eq!(fault.status(), 1);
            assert!(
                fault.text().starts_with(&format!("a:{at}: refused by ")),
                "{text}"
            );
        }
    }
}
