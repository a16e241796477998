//! Pairs on a row of cells.
use zohmirka::{Chain, Counts, Kernel, Outcome, Pair, Refusal, Request, State, Window};

/// The cells of `six`.
pub const CELLS: [f32; 6] = [1.0, 2.0, 3.0, 4.0, 5.0, 6.0];

/// Six cells: raw of offsets 0 and 2, and the sum of offsets 1 and 0. The union is 2, 1 and 0, with iterations 0 to 3 and firings in clocks 2 to 5.
pub fn six() -> Pair {
    Pair::plan(&row(6), &window(&[0, 2], Kernel::Raw), &window(&[1, 0], Kernel::Scaled(1.0))).unwrap()
}

/// A chain on so many cells in a row.
pub fn row(cells: u32) -> Chain {
    Request::on_rectangle(&[cells]).reference(&[0]).plan().unwrap()
}

/// A window on a row of cells.
pub fn window(offsets: &[i16], kernel: Kernel) -> Window {
    let offsets: Vec<Vec<i16>> = offsets.iter().map(|&offset| vec![offset]).collect();
    Window::new(&offsets, kernel)
}

/// What planning is refused by, or 0.
pub fn planned(grid: &Chain, first: &Window, second: &Window) -> u32 {
    Pair::plan(grid, first, second).err().map_or(0, Refusal::number)
}

/// What one call on a fresh state leaves: the outcome and both outputs, which have so many places.
pub fn whole(pair: &Pair, cells: &[u32], places: [usize; 2]) -> (Result<Outcome, Refusal>, Vec<u32>, Vec<u32>) {
    let (mut first, mut second) = (vec![7; places[0]], vec![8; places[1]]);
    let mut store = vec![0; pair.chain.places()];
    let outcome = pair.run(&mut State::fresh(), &mut store, cells, &mut first, &mut second, u32::MAX);
    (outcome, first, second)
}

pub fn counts(cells: u32, firings: u32, clocks: u32) -> Counts {
    Counts { cells, firings, clocks }
}

pub fn floats<const N: usize>(values: [f32; N]) -> [u32; N] {
    values.map(f32::to_bits)
}
