//! The grid of a draft, with any counts and entries: what its line says, and where its iterations are.
use straight::grid::MOST_ROWS;
use straight::Grid;

#[derive(Clone, Debug)]
pub enum Ground {
    Sizes(Vec<u32>),
    /// Start and length of each row.
    Rows(Vec<[u16; 2]>),
}

/// The iterations of one row: the first column and the last.
#[derive(Clone, Copy, Debug)]
pub struct Span {
    pub row: i64,
    pub from: i64,
    pub to: i64,
}

impl Ground {
    pub fn dims(&self) -> usize {
        match self {
            Ground::Sizes(sizes) => sizes.len(),
            Ground::Rows(_) => 2,
        }
    }

    /// The grid as a value, where its counts allow one.
    pub fn grid(&self) -> Option<Grid> {
        match self {
            Ground::Sizes(sizes) => (sizes.len() <= 4).then(|| Grid::new(sizes)),
            Ground::Rows(rows) => {
                let rows: Vec<(u16, u16)> = rows.iter().map(|&[s, l]| (s, l)).collect();
                (rows.len() <= MOST_ROWS).then(|| Grid::rows(&rows))
            }
        }
    }

    /// The bytes of the `01` or `09` line.
    pub fn line(&self) -> Vec<u8> {
        let mut bytes;
        match self {
            Ground::Sizes(sizes) => {
                bytes = vec![1, sizes.len() as u8];
                sizes
                    .iter()
                    .for_each(|size| bytes.extend(size.to_be_bytes()));
            }
            Ground::Rows(rows) => {
                bytes = vec![9];
                bytes.extend((rows.len() as u16).to_be_bytes());
                let numbers = rows.iter().flatten();
                numbers.for_each(|number| bytes.extend(number.to_be_bytes()));
            }
        }
        bytes
    }

    /// The position of a cell that is inside.
    pub fn position(&self, cell: &[i64]) -> i64 {
        match self {
            Ground::Sizes(sizes) => cell.iter().zip(sizes).fold(0, |position, (&index, &size)| {
                assert!(index >= 0 && index < size as i64, "inside the grid");
                position * size as i64 + index
            }),
            Ground::Rows(rows) => {
                let (above, rest) = rows.split_at(cell[0] as usize);
                let [start, length] = rest[0].map(i64::from);
                let column = cell[1] - start;
                assert!(column >= 0 && column < length, "inside the grid");
                above.iter().map(|row| row[1] as i64).sum::<i64>() + column
            }
        }
    }

    /// The rows that have iterations, on rows.
    pub fn spans(&self, offsets: &[Vec<i16>]) -> Vec<Span> {
        let Ground::Rows(rows) = self else {
            return Vec::new();
        };
        let span = |row: i64| {
            let mut span = Span {
                row,
                from: i64::MIN,
                to: i64::MAX,
            };
            for offset in offsets {
                let at = usize::try_from(row + offset[0] as i64).ok()?;
                let [start, length] = rows.get(at)?.map(i64::from);
                span.from = span.from.max(start - offset[1] as i64);
                span.to = span.to.min(start + length - 1 - offset[1] as i64);
            }
            (span.from <= span.to).then_some(span)
        };
        // Every other row takes the first reference out of the grid.
        let top = -(offsets[0][0] as i64);
        (top..top + rows.len() as i64).filter_map(span).collect()
    }
}
