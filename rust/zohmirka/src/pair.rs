//! Two kernels on one chain, each with its own references and its own output.
use crate::refusal::accepted;
use crate::run::outcome_of;
use crate::{checked, native, Chain, Kernel, Outcome, Refusal, State, CHAIN_WORDS, WINDOW_WORDS};

/// Where the kernel of a window stands; its factors stand behind it.
const KERNEL: usize = 129;

/// One of the two windows of a `Pair`, as words in the layout of c/zohmirka.h: its references in its author's order, in which the kernel adds, and its kernel. Any
/// words are a window, which `Pair::plan` and `Pair::run` judge. Windows are compared word by word.
#[derive(Clone, Debug, PartialEq, Eq)]
pub struct Window {
    pub words: [u32; WINDOW_WORDS],
}

impl Window {
    /// A window of these references, in the author's order, and this kernel. Of an offset shorter than the grid's dimensions the missing entries are 0; entries past the
    /// dimensions play no part. What has no room is written as a window that is refused by 4: more than 32 references, and an offset of more than 4 entries.
    pub fn new(offsets: &[Vec<i16>], kernel: Kernel) -> Window {
        let mut words = [0; WINDOW_WORDS];
        words[0] = u32::try_from(offsets.len()).unwrap_or(u32::MAX);
        for (places, offset) in words[1..KERNEL].chunks_exact_mut(4).zip(offsets) {
            for (place, &entry) in places.iter_mut().zip(offset) {
                *place = u32::from(entry as u16);
            }
        }
        if offsets.iter().any(|offset| offset.len() > 4) {
            words[0] = u32::MAX;
        }
        words[KERNEL] = kernel.number().into();
        for (word, factor) in words[KERNEL + 1..].iter_mut().zip(kernel.factors()) {
            *word = factor.to_bits();
        }
        Window { words }
    }

    /// The window of a chain: its references in its author's order, or in chain order where none stood, and its kernel. Where the chain has more than 32 references, or
    /// an order with a number that no filter has, it is one that is refused by 4.
    pub fn of(chain: &Chain) -> Window {
        let offsets = chain.offsets();
        let author = match chain.order() {
            Some(order) => order.iter().map(|&filter| offsets.get(filter as usize).cloned()).collect(),
            None => Some(offsets.clone()),
        };
        let mut window = Window::new(author.as_ref().unwrap_or(&offsets), chain.kernel());
        if author.is_none() || chain.references() > 32 {
            window.words[0] = u32::MAX;
        }
        window
    }

    /// How many references the window has, counted to 255 as the library counts them; an accepted window has 1 to 32.
    pub fn references(&self) -> usize {
        self.words[0].min(255) as usize
    }

    /// The offsets in the author's order, of each so many entries. There are no more than 32 of at most 4 entries.
    pub fn offsets(&self, dimensions: usize) -> Vec<Vec<i16>> {
        let offsets = self.words[1..KERNEL].chunks_exact(4).take(self.references());
        offsets.map(|entries| entries.iter().take(dimensions).map(|&entry| entry as i16).collect()).collect()
    }

    /// The kernel, as `Chain::kernel` takes the words.
    pub fn kernel(&self) -> Kernel {
        Kernel::of(self.words[KERNEL], f32::from_bits(self.words[KERNEL + 1]), f32::from_bits(self.words[KERNEL + 2]))
    }

    /// How many words a firing writes to the window's output: raw one for each of its references, the other kernels one.
    pub fn width(&self) -> usize {
        if self.words[KERNEL] == 0 {
            self.references()
        } else {
            1
        }
    }
}

/// Two windows over the same grid, and a chain for the union of their references. Iterations are those of the union, and each firing writes to either window's output
/// what its kernel gives on its own cells: terms in that window's author's order, raw in chain order. The chain's own kernel and order play no part. Pairs are equal if
/// their chains and their windows are.
///
/// Here fuel and timing on 4 rows of 5 cells. Fuel takes a cell less its left and its right neighbour, timing the cell below and the one above as they are; together
/// they are the five-point cross, with iterations in rows 1 and 2, columns 1 to 3:
///
/// ```
/// use zohmirka::{Counts, Kernel, Outcome, Pair, Request, State, Window};
/// let grid = Request::on_rectangle(&[4, 5]).reference(&[0, 0]).plan().unwrap();
/// let fuel = Window::new(&[vec![0, 0], vec![0, -1], vec![0, 1]], Kernel::Difference);
/// let timing = Window::new(&[vec![1, 0], vec![-1, 0]], Kernel::Raw);
/// let pair = Pair::plan(&grid, &fuel, &timing).unwrap();
/// assert_eq!(pair.chain.offsets(), [[1, 0], [0, 1], [0, 0], [0, -1], [-1, 0]]);
/// assert_eq!(pair.chain.capacities(), [4, 1, 1, 4]);
///
/// let cells: Vec<u32> = (1..=20).map(|cell| (cell as f32).to_bits()).collect();
/// let mut store = vec![0; pair.chain.places()];
/// let (mut squares, mut both) = (vec![0; 6 * fuel.width()], vec![0; 6 * timing.width()]);
/// let outcome = pair.run(&mut State::fresh(), &mut store, &cells, &mut squares, &mut both, u32::MAX);
/// assert_eq!(outcome, Ok(Outcome::Done(Counts { cells: 19, firings: 6, clocks: 19 })));
/// // Neighbours in a row differ by 1, so each sum of two squares is 2.
/// assert_eq!(squares, [2.0f32.to_bits(); 6]);
/// assert_eq!(both[..4], [12.0f32, 2.0, 13.0, 3.0].map(f32::to_bits));
/// ```
#[derive(Clone, Debug, PartialEq, Eq)]
pub struct Pair {
    pub chain: Chain,
    pub first: Window,
    pub second: Window,
}

impl Pair {
    /// Plans the chain of two windows: the union of their references in falling order, the reuse distances, kernel raw, and the order in which the chain has them. Of
    /// `grid` only the grid with its rows and the box play a part, and the chain gets both; a chain planned on that grid for any window will do. Refusals, of both
    /// windows together: 3 or 16, 4 (of either window or of the union), 5 (of either), 6, 15, 7, 8 and 9.
    pub fn plan(grid: &Chain, first: &Window, second: &Window) -> Result<Pair, Refusal> {
        checked();
        let mut chain = Chain { words: [0; CHAIN_WORDS], rows: Vec::new() };
        accepted(native::plan_pair(&grid.words, &grid.rows, &first.words, &second.words, &mut chain.words))?;
        if chain.is_skewed() {
            chain.rows = grid.rows[..2 * chain.words[211] as usize].to_vec();
        }
        Ok(Pair { chain, first: first.clone(), second: second.clone() })
    }

    /// A run call, with the rules of `run`, but that there are two outputs: a firing needs `width` places of each window's own. Where either has fewer left at a firing
    /// the call ends Full, and neither is written. Refusals: 3 or 16, 4, 5, 6, 15, 7, 8, 9, then 14 where the chain's references are not those of both windows, then 10
    /// and 11.
    pub fn run(
        &self,
        state: &mut State,
        store: &mut [u32],
        cells: &[u32],
        out_first: &mut [u32],
        out_second: &mut [u32],
        allowance: u32,
    ) -> Result<Outcome, Refusal> {
        checked();
        let (chain, rows) = (&self.chain.words, &self.chain.rows);
        let (first, second) = (&self.first.words, &self.second.words);
        outcome_of(native::run_pair(chain, rows, first, second, &mut state.words, store, cells, out_first, out_second, allowance))
    }
}
