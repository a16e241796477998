//! What one line says, in words.

use super::parts::{named, Grid, Kernel, Part};
use super::Kind;
use crate::wording::{count, dimension, ends, float, grouped, vector};
use zohmirka::Refusal;

/// What was read so far: lines are counted, and a FIFO lies between two offsets.
pub struct Meaning {
    kind: Kind,
    dims: usize,
    offsets: Vec<Vec<i16>>,
    references: usize,
    fifos: usize,
    cells: usize,
}

impl Meaning {
    /// For the lines of a sheet of this kind that has these offsets.
    pub fn new(kind: Kind, offsets: Vec<Vec<i16>>) -> Meaning {
        Meaning {
            kind,
            dims: 0,
            offsets,
            references: 0,
            fifos: 0,
            cells: 0,
        }
    }

    /// The words of the next line.
    pub fn words(&mut self, part: &Part) -> String {
        match part {
            Part::Grid(grid) => self.grid(grid),
            Part::Offset(offset) => self.offset(offset),
            Part::Name(name) => self.name(*name),
            Part::Bounds(bounds) => in_bounds(bounds),
            Part::Capacity(capacity) => self.capacity(*capacity),
            Part::Order(order) => format!("the author's order: filters {}", joined(order)),
            Part::Kernel(kernel) => in_kernel(kernel),
            Part::Cell(cell) => self.cell(*cell),
            Part::Firing(index, words) => firing(*index, words),
            Part::Ended(how, clocks) => ended(*how, *clocks),
            Part::Refused(number) => Refusal::of((*number).into()).to_string(),
        }
    }

    fn grid(&mut self, grid: &Grid) -> String {
        match grid {
            Grid::Rectangle(sizes) => {
                self.dims = sizes.len();
                match sizes[..] {
                    [cells] => format!("grid: {}", count(cells as usize, "cell")),
                    [rows, columns] => format!(
                        "grid: {} of {}",
                        count(rows as usize, "row"),
                        count(columns as usize, "cell")
                    ),
                    _ => format!("grid: {} cells", sizes_of(sizes)),
                }
            }
            Grid::Rows(rows) => {
                self.dims = 2;
                format!(
                    "skewed grid of {}: {}",
                    count(rows.len(), "row"),
                    in_rows(rows)
                )
            }
        }
    }

    fn offset(&mut self, offset: &[i16]) -> String {
        let what = match self.kind {
            Kind::Request => "reference",
            Kind::Chain => "filter",
        };
        self.references += 1;
        format!("{what} {}: offset {}", self.references - 1, vector(offset))
    }

    fn name(&self, name: u8) -> String {
        let offsets = named(name, self.dims).unwrap_or_default();
        let offsets: Vec<String> = offsets.iter().map(|offset| vector(offset)).collect();
        format!("window {name:02X}: offsets {}", offsets.join(" "))
    }

    fn capacity(&mut self, capacity: u32) -> String {
        let fifo = self.fifos;
        self.fifos += 1;
        let places = count(capacity as usize, "place");
        match self.offsets.get(fifo..fifo + 2) {
            Some([before, behind]) => format!(
                "FIFO {fifo}, between {} and {}: {places}",
                vector(before),
                vector(behind)
            ),
            _ => format!("FIFO {fifo}: {places}"),
        }
    }

    fn cell(&mut self, cell: u32) -> String {
        self.cells += 1;
        format!("cell {}: {}", self.cells - 1, in_word(cell))
    }
}

fn sizes_of(sizes: &[u32]) -> String {
    let sizes: Vec<String> = sizes.iter().map(|&size| grouped(size as u128)).collect();
    sizes.join(" x ")
}

fn joined(numbers: &[u8]) -> String {
    let numbers: Vec<String> = numbers.iter().map(u8::to_string).collect();
    numbers.join(", ")
}

/// Rows that follow each other and are the same are named once; of many the first and the last.
fn in_rows(rows: &[(u16, u16)]) -> String {
    let mut runs: Vec<String> = Vec::new();
    let mut first = 0;
    for same in rows.chunk_by(|a, b| a == b) {
        let (start, length) = (same[0].0 as i64, same[0].1 as i64);
        let behind = first + same.len() as i64;
        let columns = ends("column", start, start + length - 1);
        runs.push(format!("{}: {columns}", ends("row", first, behind - 1)));
        first = behind;
    }
    if let [first, second, .., last] = &runs[..] {
        if runs.len() > 6 {
            return [first, second, "..", last].join("; ");
        }
    }
    runs.join("; ")
}

fn in_bounds(bounds: &[(i32, i32)]) -> String {
    let each = bounds.iter().enumerate().map(|(d, &(low, high))| {
        let colon = if bounds.len() == 2 { "" } else { ":" };
        let dimension = dimension(d, bounds.len()) + colon;
        ends(&dimension, low as i64, high as i64)
    });
    format!("box: {}", each.collect::<Vec<_>>().join(", "))
}

fn in_kernel(kernel: &Kernel) -> String {
    let name = kernel.name();
    match *kernel {
        Kernel::Raw | Kernel::Difference => format!("kernel: {name}"),
        Kernel::Scaled(factor) => format!("kernel: {name}, factor {}", float(factor)),
        Kernel::Blend(a, b) => format!("kernel: {name}, a = {}, b = {}", float(a), float(b)),
    }
}

fn in_word(word: u32) -> String {
    format!("{} ({word:08X})", float(word))
}

fn firing(index: u32, words: &[u32]) -> String {
    let words: Vec<String> = words.iter().map(|&word| in_word(word)).collect();
    format!("firing {index}: {}", words.join(", "))
}

fn ended(how: u8, clocks: u32) -> String {
    let clocks = count(clocks as usize, "clock");
    match how {
        0 => format!("done after {clocks}"),
        1 => format!("stalled after {clocks}"),
        2 => format!("starved after {clocks}"),
        _ => format!("an unknown end, {how:02X}, after {clocks}"),
    }
}
