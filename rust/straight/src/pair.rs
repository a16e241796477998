//! Two kernels on one chain (document 02, request 6), each with its own references and its own output.
use crate::geometry::Shape;
use crate::grid::Grid;
use crate::judge::{
    capacity_sum, judge_box, judge_centre, judge_count, judge_factors, judge_grid,
    judge_iterations, judge_sum, judge_twins,
};
use crate::kernel::{apply, words, Terms};
use crate::plan::steps;
use crate::run::{bad_state, go};
use crate::types::{Answer, Bounds, Chain, Kernel, Order, Refusal, State, Window};

/// One of the two: its references in its author's order, and the kernel that gets their cells.
#[derive(Clone, Copy, Debug, PartialEq)]
pub struct Side {
    pub window: Window,
    pub kernel: Kernel,
}

impl Side {
    pub fn new(offsets: &[&[i16]], kernel: Kernel) -> Side {
        Side {
            window: Window::new(offsets),
            kernel,
        }
    }

    /// The offsets, where 3 or 16 and 4 let pass.
    fn offsets(&self, dims: usize) -> Vec<&[i16]> {
        let count = self.window.count as usize;
        (0..count).map(|k| self.window.offset(k, dims)).collect()
    }
}

/// The different offsets of both windows, falling.
fn union(sides: &[Side; 2], dims: usize) -> Vec<&[i16]> {
    let mut union: Vec<&[i16]> = sides.iter().flat_map(|side| side.offsets(dims)).collect();
    union.sort_by(|a, b| b.cmp(a));
    union.dedup();
    union
}

/// The chain for the union: raw, with the order in which the chain has its references.
pub fn plan_pair(grid: &Grid, bounds: &Bounds, sides: &[Side; 2]) -> Result<Chain, Refusal> {
    judge_grid(grid)?;
    let dims = grid.dims();
    judge_counts(sides, dims)?;
    judge_each(sides, |side| judge_twins(&side.window, dims))?;
    let steps = steps(grid, &Window::new(&union(sides, dims)), bounds)?;
    judge_kernels(sides, dims)?;
    judge_sum(steps.total)?;
    let mut capacities = [0; 31];
    capacities[..steps.distances.len()].copy_from_slice(&steps.distances);
    let chain = Chain {
        grid: *grid,
        window: steps.window,
        bounds: *bounds,
        capacities,
        kernel: Kernel::Raw,
        order: Order::new(&steps.filters),
    };
    Ok(chain.trimmed())
}

/// 3 or 16; 4 and 5 of the chain's references and of each window's, 4 of the union too; 6 and 15 of the chain's; 7 and 8 of each
/// window; 9; and 14 where the chain's references are not the union. The chain's own kernel and order play no part.
pub fn judge_pair(chain: &Chain, sides: &[Side; 2]) -> Result<(), Refusal> {
    judge_grid(&chain.grid)?;
    let dims = chain.grid.dims();
    judge_count(chain.window.count as usize)?;
    judge_counts(sides, dims)?;
    judge_twins(&chain.window, dims)?;
    judge_each(sides, |side| judge_twins(&side.window, dims))?;
    judge_iterations(&chain.grid, &chain.window)?;
    judge_box(&chain.grid, &chain.window, &chain.bounds)?;
    judge_kernels(sides, dims)?;
    judge_sum(capacity_sum(chain))?;
    judge_union(chain, sides)
}

/// The first window's number, then the second's.
fn judge_each(
    sides: &[Side; 2],
    judge: impl Fn(&Side) -> Result<(), Refusal>,
) -> Result<(), Refusal> {
    sides.iter().try_for_each(judge)
}

/// 4 of each window and of the union.
fn judge_counts(sides: &[Side; 2], dims: usize) -> Result<(), Refusal> {
    judge_each(sides, |side| judge_count(side.window.count as usize))?;
    judge_count(union(sides, dims).len())
}

/// 7 of either window, then 8 of either.
fn judge_kernels(sides: &[Side; 2], dims: usize) -> Result<(), Refusal> {
    judge_each(sides, |side| judge_centre(&side.window, dims, &side.kernel))?;
    judge_each(sides, |side| judge_factors(&side.kernel))
}

/// 14, where 5 lets pass.
fn judge_union(chain: &Chain, sides: &[Side; 2]) -> Result<(), Refusal> {
    let dims = chain.grid.dims();
    let n = chain.window.count as usize;
    let mut references: Vec<&[i16]> = (0..n).map(|k| chain.window.offset(k, dims)).collect();
    references.sort_by(|a, b| b.cmp(a));
    if references != union(sides, dims) {
        return Err(Refusal::BadOrder);
    }
    Ok(())
}

pub fn run_pair(
    chain: &Chain,
    sides: &[Side; 2],
    state: &State,
    store: &mut [u32],
    cells: &[u32],
    outs: [&mut [u32]; 2],
    allowance: u32,
) -> (Answer, State) {
    if let Err(refusal) = judge_pair(chain, sides) {
        return (Answer::Refused(refusal), *state);
    }
    if (store.len() as u64) < capacity_sum(chain) {
        return (Answer::Refused(Refusal::ShortStore), *state);
    }
    let shape = Shape::of_run(chain);
    if bad_state(chain, &shape, state) {
        return (Answer::Refused(Refusal::BadState), *state);
    }
    let mut state = *state;
    let [first, second] = outs;
    let mut first = Output::new(chain, &sides[0], first);
    let mut second = Output::new(chain, &sides[1], second);
    // Either both are written or neither.
    let fire = |heads: &[u32]| {
        let places = first.has_places() && second.has_places();
        if places {
            first.write(heads);
            second.write(heads);
        }
        places
    };
    let outcome = go(chain, &shape, &mut state, store, cells, allowance, fire);
    (Answer::Ended(outcome), state)
}

/// A lent output and the kernel that writes to it.
struct Output<'a> {
    kernel: Kernel,
    /// The filters that hold the window's references, in chain order.
    filters: Vec<usize>,
    /// By places in `filters`.
    terms: Terms,
    /// Words that a firing writes.
    width: usize,
    out: &'a mut [u32],
    written: usize,
}

impl<'a> Output<'a> {
    /// For a chain and a window that are accepted.
    fn new(chain: &Chain, side: &Side, out: &'a mut [u32]) -> Output<'a> {
        let dims = chain.grid.dims();
        let author = side.offsets(dims);
        let held = |&k: &usize| author.contains(&chain.window.offset(k, dims));
        let filters: Vec<usize> = (0..chain.window.count as usize).filter(held).collect();
        let own: Vec<&[i16]> = filters
            .iter()
            .map(|&k| chain.window.offset(k, dims))
            .collect();
        let place = |offset: &&[i16]| own.iter().position(|held| held == offset).unwrap() as u8;
        let order: Vec<u8> = author.iter().map(place).collect();
        // A chain of the window's filters alone has the same terms.
        let alone = Chain {
            window: Window::new(&own),
            order: Order::new(&order),
            kernel: side.kernel,
            ..*chain
        };
        Output {
            kernel: side.kernel,
            width: words(&side.kernel, filters.len()),
            terms: Terms::new(&alone),
            filters,
            out,
            written: 0,
        }
    }

    fn has_places(&self) -> bool {
        self.out.len() - self.written >= self.width
    }

    /// What the kernel gives on its own window's cells; `heads` are those of all filters.
    fn write(&mut self, heads: &[u32]) {
        let mut own = [0; 32];
        for (cell, &k) in own.iter_mut().zip(&self.filters) {
            *cell = heads[k];
        }
        let own = &own[..self.filters.len()];
        apply(
            &self.kernel,
            &self.terms,
            own,
            &mut self.out[self.written..],
        );
        self.written += self.width;
    }
}
