//! Grids as the command line names them.
use crate::arguments::Arguments;
use crate::csv;
use crate::fault::{trouble, Fault, Result};
use crate::numerals::{all, number};
use crate::{maps, sheet};
use zohmirka::{Chain, Request};

#[derive(Clone, Debug, PartialEq)]
pub enum Grid {
    Rectangle(Vec<u32>),
    /// First column and length of each row.
    Rows(Vec<(u32, u32)>),
}

impl Grid {
    /// The grid that `--grid` names, which the command cannot do without.
    pub fn asked(arguments: &Arguments) -> Result<Grid> {
        let text = arguments.needed("--grid", "48x64, rows:2+5,3+5 or like:MAP.csv")?;
        if let Some(name) = text.strip_prefix("like:") {
            return Ok(Grid::of_map(&maps::read_csv(name, arguments)?));
        }
        arguments.without(
            &[maps::CSV, maps::DIALECT].concat(),
            "--grid is not like:MAP.csv",
        )?;
        let grid = match text.strip_prefix("rows:") {
            Some(rows) => all(rows, ',', row).map(Grid::Rows),
            None => all(text, 'x', number).map(Grid::Rectangle),
        };
        let forms = "48x64 by its sizes, rows:2+5,3+5 by first column and length of each row, or like:MAP.csv";
        grid.ok_or_else(|| Fault::Trouble(format!("--grid {text:?}: it goes {forms}")))
    }

    pub fn of_map(map: &csv::Map) -> Grid {
        if map.is_slanted() {
            return Grid::Rows(
                map.rows()
                    .iter()
                    .map(|row| (row.start as u32, row.length as u32))
                    .collect(),
            );
        }
        Grid::Rectangle(vec![map.height() as u32, map.width() as u32])
    }

    pub fn of_chain(chain: &Chain) -> Grid {
        match (chain.skewed(), chain.sizes()) {
            (Some(rows), _) => Grid::Rows(rows),
            (None, sizes) => Grid::Rectangle(sizes.unwrap_or_default().to_vec()),
        }
    }

    /// A grid that the library takes, with a window of one cell; what it refuses is the grid.
    pub fn judged(self) -> Result<Grid> {
        let cell = vec![0; self.dimensions()];
        let request = self.request().reference(&cell);
        match request.plan() {
            Ok(_) => Ok(self),
            Err(refusal) => Err(sheet::refused_options(&request.sheet(), refusal)),
        }
    }

    pub fn dimensions(&self) -> usize {
        match self {
            Grid::Rectangle(sizes) => sizes.len(),
            Grid::Rows(_) => 2,
        }
    }

    /// First column and length of each row, where there are two dimensions.
    pub fn rows(&self) -> Option<Vec<(u32, u32)>> {
        match self {
            Grid::Rows(rows) => Some(rows.clone()),
            Grid::Rectangle(sizes) => match sizes[..] {
                [height, width] => Some(vec![(0, width); height as usize]),
                _ => None,
            },
        }
    }

    /// Two grids that differ, in words: as many rows by the first that differs, others whole.
    pub fn apart(&self, other: &Grid) -> (String, String) {
        if let (Grid::Rows(rows), Grid::Rows(others)) = (self, other) {
            let mut pairs = rows.iter().zip(others).enumerate();
            let differ = pairs.find(|(_, (row, other))| row != other);
            if let Some((at, (row, other))) = differ.filter(|_| rows.len() == others.len()) {
                let shown = |(start, length): &(u32, u32)| format!("{start}+{length} in row {at}");
                return (shown(row), shown(other));
            }
        }
        (self.to_string(), other.to_string())
    }

    /// A fault where a map has other rows and columns than this grid.
    pub fn expect_of_map(&self, whose: &str, map: &csv::Map) -> Result<()> {
        let found = Grid::of_map(map);
        if *self == found {
            return Ok(());
        }
        let (found, own) = found.apart(self);
        trouble(format!("the map is {found}, and the {whose} grid {own}"))
    }

    /// A request on this grid, as yet without a window.
    pub fn request(&self) -> Request {
        match self {
            Grid::Rectangle(sizes) => Request::on_rectangle(sizes),
            Grid::Rows(rows) => Request::on_rows(rows),
        }
    }
}

impl std::fmt::Display for Grid {
    fn fmt(&self, f: &mut std::fmt::Formatter<'_>) -> std::fmt::Result {
        match self {
            Grid::Rectangle(sizes) => {
                let sizes: Vec<String> = sizes.iter().map(u32::to_string).collect();
                f.write_str(&sizes.join(" by "))
            }
            Grid::Rows(rows) => {
                const SHOWN: usize = 4;
                let first: Vec<String> = rows
                    .iter()
                    .take(SHOWN)
                    .map(|(start, length)| format!("{start}+{length}"))
                    .collect();
                let more = if rows.len() > SHOWN { ",.." } else { "" };
                write!(f, "{} rows {}{more}", rows.len(), first.join(","))
            }
        }
    }
}

fn row(text: &str) -> Option<(u32, u32)> {
    let (start, length) = text.split_once('+')?;
    // The sheet has two bytes for each.
    let fits = |text| number::<u16>(text).map(u32::from);
    Some((fits(start)?, fits(length)?))
}

#[cfg(test)]
mod tests {
    use super::*;

    #[test]
    fn grids_in_words() {
        assert_eq!(Grid::Rectangle(vec![4, 5]).to_string(), "4 by 5");
        let rows = |count| Grid::Rows(vec![(2, 5); count]).to_string();
        assert_eq!(rows(4), "4 rows 2+5,2+5,2+5,2+5");
        assert_eq!(rows(5), "5 rows 2+5,2+5,2+5,2+5,..");
    }

    #[test]
    fn grids_that_differ_in_words() {
        let words = |one: &Grid, other: &Grid| {
            let (one, other) = one.apart(other);
            format!("{one}; {other}")
        };
        let (flat, rows) = (Grid::Rectangle(vec![4, 5]), Grid::Rows(vec![(2, 5); 6]));
        assert_eq!(words(&flat, &Grid::Rectangle(vec![5])), "4 by 5; 5");
        assert_eq!(words(&rows, &flat), "6 rows 2+5,2+5,2+5,2+5,..; 4 by 5");
        let mut other = vec![(2, 5); 6];
        other[5] = (3, 5);
        let last = Grid::Rows(other.clone());
        assert_eq!(words(&rows, &last), "2+5 in row 5; 3+5 in row 5");
        other.pop();
        let fewer = "6 rows 2+5,2+5,2+5,2+5,..; 5 rows 2+5,2+5,2+5,2+5,..";
        assert_eq!(words(&rows, &Grid::Rows(other)), fewer);
    }
}
