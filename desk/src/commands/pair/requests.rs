//! The two requests of a pair, and the chain that is planned for both.

use crate::fault::{trouble, Fault, Result};
use crate::files;
use crate::grid::Grid;
use crate::request::{box_name, Source};
use crate::sheet::{self, line_of};
use crate::smoothing;
use zohmirka::{Chain, Pair, Refusal, Window};

/// One of the two.
pub struct Side<'a> {
    /// As messages have it.
    pub name: &'a str,
    sheet: Vec<u8>,
    /// The chain that is planned for it alone.
    pub chain: Chain,
}

impl Side<'_> {
    /// A request for a map, with one word a firing.
    pub fn read(name: &str) -> Result<Side<'_>> {
        let source = Source::read(name)?;
        let (_, chain) = source.plan()?;
        let side = Side {
            name: files::shown(name),
            sheet: source.sheet,
            chain,
        };
        smoothing::expect_one_word(&side.place("04"), &side.chain)?;
        match side.chain.dimensions() {
            2 => Ok(side),
            dims => {
                let place = side.place("01");
                trouble(format!(
                    "{place}: a map has two dimensions, and the grid {dims}"
                ))
            }
        }
    }

    pub fn grid(&self) -> Grid {
        Grid::of_chain(&self.chain)
    }

    fn shown_box(&self) -> String {
        let bounds = self.chain.bounds();
        bounds.map_or("none".into(), |ends| box_name(&ends))
    }

    /// The file, and the line of a kind where one stands.
    fn place(&self, kind: &str) -> String {
        match line_of(&self.sheet, kind) {
            Some(line) => format!("{}:{line}", self.name),
            None => self.name.to_string(),
        }
    }
}

/// The chain for both windows, where the requests have one grid and one box.
pub fn plan([first, second]: &[Side; 2]) -> Result<Pair> {
    let (one, other) = (first.grid(), second.grid());
    if one != other {
        let (one, other) = one.apart(&other);
        let (first, second) = (first.name, second.name);
        // The grid is the first line of each.
        return trouble(format!(
            "{first}:1: the grid is {one}, and in {second}:1 {other}"
        ));
    }
    if first.chain.bounds() != second.chain.bounds() {
        return trouble(format!(
            "{}: the box is {}, and in {} {}",
            first.place("08"),
            first.shown_box(),
            second.place("08"),
            second.shown_box()
        ));
    }
    let [one, other] = [first, second].map(|side| Window::of(&side.chain));
    Pair::plan(&first.chain, &one, &other).map_err(|refusal| refused(first, second, refusal))
}

/// The fault of two requests of which each has a plan, and both together have none.
fn refused(first: &Side, second: &Side, refusal: Refusal) -> Fault {
    let name = format!("{} and {} together", first.name, second.name);
    let mut union = [first.chain.offsets(), second.chain.offsets()].concat();
    union.sort();
    union.dedup();
    if refusal == Refusal::BadCount {
        let words = format!(
            "{} references, those of both counted once; a chain has at most 32",
            union.len()
        );
        return Fault::No(format!("{name}: {refusal}\n  {words}"));
    }
    let mut request = first.grid().request();
    for offset in &union {
        request = request.reference(offset);
    }
    if let Some(ends) = first.chain.bounds() {
        request = request.bounds(&ends);
    }
    sheet::refused_parts(&name, &request.sheet(), refusal)
}
