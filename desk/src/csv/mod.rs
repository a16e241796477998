//! Maps and logs in CSV: read with every fault's line and field, written in the dialect that was read.

mod axes;
mod cells;
mod dialect;
mod fault;
mod grid;
mod map;
mod number;
mod split;
mod table;
mod text;
mod write;

#[cfg(test)]
mod tests;

pub use axes::Axes;
pub use cells::{Cells, Row};
pub use dialect::Dialect;
pub(crate) use fault::excerpt;
pub use fault::Fault;
pub use map::{read, Map};
pub(crate) use number::number;
pub use table::{table, Table};
pub use write::{Form, Rim, Writer};

/// How the user wants a map to be read. What is not said is found in the file, where one reading alone fits.
#[derive(Clone, Debug, Default)]
pub struct Asked {
    pub delimiter: Option<u8>,
    pub decimal: Option<u8>,
    pub axes: Option<Axes>,
    /// Empty cells at a row's ends lie outside the map.
    pub slanted: bool,
    /// The word for an empty cell.
    pub fill: Option<u32>,
    pub cells: Cells,
}
