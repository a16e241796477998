//! Where firings belong. There is no geometry of windows here: the chain is run raw over the cells
//! 0, 1, 2, .., so that a firing's word 0 is the position of the cell that filter 0 reads; its index
//! less filter 0's offset is the iteration.
use zohmirka::{Chain, Kernel, Outcome, Pair, Refusal, State};

#[derive(Clone, Copy, Debug, PartialEq, Eq)]
pub enum End {
    Done,
    Stalled,
    Starved,
}

/// How a whole run ended.
#[derive(Clone, Copy, Debug, PartialEq, Eq)]
pub struct Ran {
    pub end: End,
    pub firings: u32,
    pub clocks: u32,
}

/// How many firings a call has places for.
const FIRINGS: usize = 1024;

/// Runs a chain over the cells of a stream, and hands each firing's words on.
pub fn run(chain: &Chain, cells: &[u32], mut firing: impl FnMut(&[u32])) -> Result<Ran, Refusal> {
    let mut store = vec![0; chain.places()];
    // An accepted chain writes a word or more.
    let width = chain.width().max(1);
    let mut out = vec![0; FIRINGS * width];
    to_the_end(cells, |state, rest| {
        let outcome = chain.run(state, &mut store, rest, &mut out, u32::MAX)?;
        let made = outcome.counts().firings as usize;
        out.chunks_exact(width).take(made).for_each(&mut firing);
        Ok(outcome)
    })
}

/// The same of two windows on one chain: each firing's words of the first, and those of the second.
pub fn run_pair(
    pair: &Pair,
    cells: &[u32],
    mut firing: impl FnMut(&[u32], &[u32]),
) -> Result<Ran, Refusal> {
    let mut store = vec![0; pair.chain.places()];
    let widths = [&pair.first, &pair.second].map(|window| window.width().max(1));
    let [mut first, mut second] = widths.map(|width| vec![0; FIRINGS * width]);
    to_the_end(cells, |state, rest| {
        let outcome = pair.run(state, &mut store, rest, &mut first, &mut second, u32::MAX)?;
        let made = outcome.counts().firings as usize;
        let both = first
            .chunks_exact(widths[0])
            .zip(second.chunks_exact(widths[1]));
        both.take(made)
            .for_each(|(first, second)| firing(first, second));
        Ok(outcome)
    })
}

/// Makes calls of a fresh run, each with the cells that are left, until it ends.
fn to_the_end(
    cells: &[u32],
    mut call: impl FnMut(&mut State, &[u32]) -> Result<Outcome, Refusal>,
) -> Result<Ran, Refusal> {
    let (mut state, mut clocks) = (State::fresh(), 0);
    loop {
        let rest = &cells[state.passed(0) as usize..];
        let outcome = call(&mut state, rest)?;
        clocks += outcome.counts().clocks;
        let end = match outcome {
            Outcome::Done(_) => End::Done,
            Outcome::Stalled(_) => End::Stalled,
            Outcome::Starved(_) => End::Starved,
            Outcome::Full(_) | Outcome::Spent(_) => continue,
        };
        return Ok(Ran {
            end,
            firings: state.firings(),
            clocks,
        });
    }
}

/// The iterations that a chain fires, in order.
pub struct Iterations {
    dimensions: usize,
    indices: Vec<i32>,
}

impl Iterations {
    pub fn iter(&self) -> impl Iterator<Item = &[i32]> {
        self.indices.chunks_exact(self.dimensions)
    }
}

/// The iterations of the firings that a chain makes of so many cells.
pub fn iterations(chain: &Chain, cells: usize) -> Result<Iterations, Refusal> {
    let raw = chain.with_kernel(Kernel::Raw);
    // Cells past the grid's last one are never taken.
    let numbers: Vec<u32> = (0..chain.cells().min(cells as u64) as u32).collect();
    let first: Vec<i32> = chain.offsets()[0]
        .iter()
        .map(|&entry| i32::from(entry))
        .collect();
    let layout = Layout::of(chain);
    let mut indices = Vec::new();
    run(&raw, &numbers, |words| {
        let index = layout.index(words[0]);
        indices.extend(index.iter().zip(&first).map(|(index, entry)| index - entry));
    })?;
    Ok(Iterations {
        dimensions: first.len(),
        indices,
    })
}

/// Where the cells of a grid lie, by their positions.
enum Layout {
    Rectangle(Vec<u32>),
    /// The position at which each row begins, and its first column.
    Rows(Vec<(u32, u32)>),
}

impl Layout {
    fn of(chain: &Chain) -> Layout {
        let Some(rows) = chain.skewed() else {
            return Layout::Rectangle(chain.sizes().unwrap_or_default().to_vec());
        };
        let mut begin = 0;
        let rows = rows.into_iter().map(|(start, length)| {
            begin += length;
            (begin - length, start)
        });
        Layout::Rows(rows.collect())
    }

    /// The index of the cell at a position, an entry for each dimension and 0 behind them.
    fn index(&self, position: u32) -> [i32; 4] {
        let mut index = [0; 4];
        match self {
            Layout::Rectangle(sizes) => {
                let mut rest = position;
                for (entry, size) in index.iter_mut().zip(sizes).rev() {
                    *entry = (rest % size) as i32;
                    rest /= size;
                }
            }
            Layout::Rows(rows) => {
                let row = rows.partition_point(|&(begin, _)| begin <= position) - 1;
                let (begin, start) = rows[row];
                (index[0], index[1]) = (row as i32, (position - begin + start) as i32);
            }
        }
        index
    }
}
