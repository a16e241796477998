//! The two kinds of grid: a rectangle, and rows that each have their own first column and length (document 02, request 5).

pub const MOST_ROWS: usize = 512;

#[derive(Clone, Copy, Debug, PartialEq)]
pub enum Grid {
    Rectangle(Rectangle),
    Rows(Rows),
}

/// Sizes past the dimensions play no part.
#[derive(Clone, Copy, Debug, PartialEq)]
pub struct Rectangle {
    pub dims: u8,
    pub sizes: [u32; 4],
}

/// Rows past the count play no part.
#[derive(Clone, Copy, Debug, PartialEq)]
pub struct Rows {
    pub count: u16,
    pub rows: [Row; MOST_ROWS],
}

/// A row's cells have the columns from its start on.
#[derive(Clone, Copy, Debug, Default, PartialEq, Eq)]
pub struct Row {
    pub start: u16,
    pub length: u16,
}

impl Grid {
    pub fn new(sizes: &[u32]) -> Grid {
        let mut rectangle = Rectangle {
            dims: sizes.len() as u8,
            sizes: [0; 4],
        };
        rectangle.sizes[..sizes.len()].copy_from_slice(sizes);
        Grid::Rectangle(rectangle)
    }

    /// Start and length of each row, from the top.
    pub fn rows(rows: &[(u16, u16)]) -> Grid {
        let mut skewed = Rows {
            count: rows.len() as u16,
            rows: [Row::default(); MOST_ROWS],
        };
        for (row, &(start, length)) in skewed.rows.iter_mut().zip(rows) {
            *row = Row { start, length };
        }
        Grid::Rows(skewed)
    }

    pub fn dims(&self) -> usize {
        match self {
            Grid::Rectangle(rectangle) => rectangle.dims as usize,
            Grid::Rows(_) => 2,
        }
    }

    /// How many cells are streamed, where the counts are in order.
    pub fn cells(&self) -> u128 {
        match self {
            Grid::Rectangle(rectangle) => rectangle.sizes().iter().map(|&s| s as u128).product(),
            Grid::Rows(rows) => rows.given().iter().map(|row| row.length as u128).sum(),
        }
    }

    /// Puts 0 past the counts.
    pub fn trim(&mut self) {
        match self {
            Grid::Rectangle(rectangle) => {
                let count = rectangle.sizes().len();
                rectangle.sizes[count..].fill(0);
            }
            Grid::Rows(rows) => {
                let count = rows.given().len();
                rows.rows[count..].fill(Row::default());
            }
        }
    }
}

impl Rectangle {
    /// The sizes that play a part.
    pub fn sizes(&self) -> &[u32] {
        &self.sizes[..(self.dims as usize).min(4)]
    }
}

impl Rows {
    /// The rows that play a part.
    pub fn given(&self) -> &[Row] {
        &self.rows[..(self.count as usize).min(MOST_ROWS)]
    }
}
