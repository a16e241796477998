//! Chains as words: read, written, judged, run, and what they say.
use crate::refusal::accepted;
use crate::run::outcome_of;
use crate::{checked, native, Kernel, Outcome, Refusal, State, CHAIN_WORDS, ROW_NUMBERS, SHEET_BYTES};

/// A chain as words, in the layout of c/zohmirka.h. Beside them stand the rows of a skewed grid: the start of row i at 2 * i, its length behind it; a rectangle has
/// none. Any words and rows are a chain, which `run` judges; rows that are missing have length 0, and those past the count play no part.
///
/// Chains are equal, and their hashes too, if they agree in all that plays a part; such chains are judged, written and run alike. No part play words past the counts,
/// an order or a box that did not stand, dimension count and sizes of a skewed grid, row count and rows of a rectangle, rows past the row count, and factors that the
/// kernel does not have. What the library takes for the same is the same: any flag but 0, counts and filter numbers from 255 on, entries with the same low 16 bits, a
/// row that is missing and one of zeros, factors that are not a number, and a kernel above 3 and a scaled one with such a factor. To compare the words as they stand,
/// compare `words` and `rows`.
///
/// ```
/// let chain = zohmirka::Chain::read(b"01020000000400000005\n0200010000\n02FFFF0000\n0300000009\n04023F000000\n").unwrap();
/// assert_eq!((chain.sizes(), chain.cells()), (Some([4, 5].as_slice()), 20));
/// assert_eq!(chain.offsets(), [[1, 0], [-1, 0]]);
/// assert_eq!(chain.kernel(), zohmirka::Kernel::Scaled(0.5));
/// ```
#[derive(Clone, Debug)]
pub struct Chain {
    pub words: [u32; CHAIN_WORDS],
    pub rows: Vec<u32>,
}

impl Chain {
    /// The chain of a sheet.
    pub fn read(sheet: &[u8]) -> Result<Chain, Refusal> {
        checked();
        let mut chain = Chain { words: [0; CHAIN_WORDS], rows: Vec::new() };
        let mut rows = [0; ROW_NUMBERS];
        accepted(native::read_chain(sheet, &mut chain.words, &mut rows))?;
        if chain.is_skewed() {
            chain.rows = rows[..2 * chain.words[211] as usize].to_vec();
        }
        Ok(chain)
    }

    pub(crate) fn is_skewed(&self) -> bool {
        self.words[210] != 0
    }

    /// How many dimensions the grid has, counted to 255 as `run` counts them; an accepted chain has 1 to 4, a skewed one 2.
    pub fn dimensions(&self) -> usize {
        if self.is_skewed() {
            return 2;
        }
        self.words[0].min(255) as usize
    }

    /// Where the grid is a rectangle, its sizes, slowest dimension first: as many as there are dimensions, but no more than 4.
    pub fn sizes(&self) -> Option<&[u32]> {
        if self.is_skewed() {
            return None;
        }
        Some(&self.words[1..1 + self.dimensions().min(4)])
    }

    /// Where the grid is skewed, start and length of each row, from the top: as many as the row count says, or as there are.
    pub fn skewed(&self) -> Option<Vec<(u32, u32)>> {
        if !self.is_skewed() {
            return None;
        }
        let rows = self.rows.chunks_exact(2).take(self.words[211] as usize);
        Some(rows.map(|row| (row[0], row[1])).collect())
    }

    /// How many cells the grid has: the sizes' product, or the sum of the rows' lengths. A product above `u64::MAX`, of a chain that is refused, is `u64::MAX`.
    pub fn cells(&self) -> u64 {
        if let Some(sizes) = self.sizes() {
            return sizes.iter().fold(1, |product: u64, &size| product.saturating_mul(size.into()));
        }
        self.skewed().iter().flatten().map(|&(_, length)| u64::from(length)).sum()
    }

    /// How many references the window has, counted to 255 as `run` counts them; an accepted chain has 1 to 32.
    pub fn references(&self) -> usize {
        self.words[5].min(255) as usize
    }

    /// The offsets, filter 0's first: of each an entry for each dimension. Of a chain that is refused there are no more than 32 offsets of 4 entries.
    pub fn offsets(&self) -> Vec<Vec<i16>> {
        let offsets = self.words[6..134].chunks_exact(4).take(self.references());
        offsets.map(|entries| entries.iter().take(self.dimensions()).map(|&entry| entry as i16).collect()).collect()
    }

    /// The kernel, as the library takes the words: where they are none of the four, a scaled one whose factor is not a number, which is refused by 8.
    pub fn kernel(&self) -> Kernel {
        Kernel::of(self.words[165], f32::from_bits(self.words[166]), f32::from_bits(self.words[167]))
    }

    /// The same chain with another kernel.
    pub fn with_kernel(&self, kernel: Kernel) -> Chain {
        let mut chain = self.clone();
        chain.words[165..168].fill(0);
        chain.words[165] = kernel.number().into();
        for (word, factor) in chain.words[166..168].iter_mut().zip(kernel.factors()) {
            *word = factor.to_bits();
        }
        chain
    }

    /// The capacities, FIFO 0 first.
    pub fn capacities(&self) -> &[u32] {
        let fifos = self.references().saturating_sub(1).min(31);
        &self.words[134..134 + fifos]
    }

    /// The author's order, where it stood: the filter number of each term in turn, as it stands in the words.
    pub fn order(&self) -> Option<&[u32]> {
        if self.words[168] == 0 {
            return None;
        }
        Some(&self.words[169..169 + self.references().min(32)])
    }

    /// The box, where it stood: the lowest and the highest index of the iterations, for each dimension in turn.
    pub fn bounds(&self) -> Option<Vec<(i32, i32)>> {
        if self.words[201] == 0 {
            return None;
        }
        let dims = self.dimensions().min(4);
        let (lowest, highest) = (&self.words[202..202 + dims], &self.words[206..206 + dims]);
        Some(lowest.iter().zip(highest).map(|(&low, &high)| (low as i32, high as i32)).collect())
    }

    /// The capacities' sum: how many words the store needs.
    pub fn places(&self) -> usize {
        self.capacities().iter().map(|&c| c as usize).sum()
    }

    /// How many words a firing writes: raw one for each reference, the other kernels one.
    pub fn width(&self) -> usize {
        if self.words[165] == 0 {
            self.references()
        } else {
            1
        }
    }

    /// A run call, with the rules of `run`; `width` says how many places a firing needs.
    pub fn run(&self, state: &mut State, store: &mut [u32], cells: &[u32], out: &mut [u32], allowance: u32) -> Result<Outcome, Refusal> {
        checked();
        outcome_of(native::run_chain(&self.words, &self.rows, &mut state.words, store, cells, out, allowance))
    }

    /// Judges the chain.
    pub fn judge(&self) -> Result<(), Refusal> {
        checked();
        accepted(native::judge_chain(&self.words, &self.rows))
    }

    /// The chain's sheet.
    pub fn write(&self) -> Result<Vec<u8>, Refusal> {
        let mut sheet = vec![0; SHEET_BYTES];
        let bytes = self.write_into(&mut sheet)?;
        sheet.truncate(bytes);
        Ok(sheet)
    }

    /// The same into a lent slice; answers how many bytes were written.
    pub fn write_into(&self, sheet: &mut [u8]) -> Result<usize, Refusal> {
        checked();
        let answer = native::write_chain(&self.words, &self.rows, sheet);
        accepted(answer.refusal)?;
        Ok(answer.bytes)
    }
}
