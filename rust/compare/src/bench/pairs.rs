//! Two kernels on one chain: one run for both windows beside a run for each.
use super::cases::{cells, pairs};
use super::runs::{in_calls, library_run, words_of, Sums, PIECE};
use super::table::{per, ratio, Table};
use super::timing::least;
use crate::words::side_words;
use std::cell::RefCell;
use std::hint::black_box;
use straight::judge::capacity_sum;
use straight::kernel::words;
use straight::{plan, plan_pair, run_pair, Bounds, Chain, Grid, Request, Shape, Side, State};

/// What is lent for a whole run, of the pair or of either window; all of them read the same cells and write to the same places.
struct Lent {
    /// For both windows.
    chain: Chain,
    sides: [Side; 2],
    pair: zohmirka::Pair,
    /// For each window alone.
    own: [Chain; 2],
    own_words: [zohmirka::Chain; 2],
    cells: Vec<u32>,
    store: Vec<u32>,
    outs: [Vec<u32>; 2],
    /// Words that a firing writes to each output.
    widths: [usize; 2],
}

/// How both outputs are made.
#[derive(Clone, Copy)]
enum Way {
    /// By the library, first the one window's run and then the other's, all cells lent in one call.
    TwoWhole,
    /// The same, `PIECE` cells a call.
    TwoPieces,
    /// By the library in one run, all cells lent in one call.
    PairWhole,
    /// The same, `PIECE` cells a call.
    PairPieces,
    /// (a): in one run by `straight`, all cells lent in one call.
    RuleWhole,
}

const ALL: [Way; 5] = [
    Way::TwoWhole,
    Way::TwoPieces,
    Way::PairWhole,
    Way::PairPieces,
    Way::RuleWhole,
];

impl Lent {
    fn new(grid: Grid, sides: [Side; 2]) -> Lent {
        let chain = plan_pair(&grid, &Bounds::none(), &sides).expect("the windows are accepted");
        let own = sides.map(|side| planned_alone(grid, side));
        let places = [chain, own[0], own[1]].map(|chain| capacity_sum(&chain) as usize);
        let cells = cells(&grid);
        let widths = sides.map(|side| words(&side.kernel, side.window.count as usize));
        Lent {
            chain,
            sides,
            pair: pair_of(&chain, &sides),
            own,
            own_words: own.each_ref().map(words_of),
            store: vec![0; places.into_iter().max().unwrap_or(0)],
            outs: widths.map(|width| vec![0; cells.len() * width]),
            cells,
            widths,
        }
    }

    /// A run for each window, `block` cells lent in a call.
    fn two_runs(&mut self, block: usize) -> [Sums; 2] {
        [0, 1].map(|s| {
            let (store, out) = (&mut self.store, &mut self.outs[s]);
            library_run(&self.own_words[s], store, &self.cells, out, block)
        })
    }

    /// One run for both, `block` cells lent in a call.
    fn pair_run(&mut self, block: usize) -> Sums {
        let mut state = zohmirka::State::fresh();
        let (store, [first, second]) = (&mut self.store, &mut self.outs);
        let sums = in_calls(&self.cells, block, |cells, firings| {
            let first = &mut first[firings * self.widths[0]..];
            let second = &mut second[firings * self.widths[1]..];
            let pair = black_box(&self.pair);
            Sums::of_library(pair.run(&mut state, store, cells, first, second, u32::MAX))
        });
        black_box(&self.outs);
        sums
    }

    /// The same by `straight`, all cells lent.
    fn rule(&mut self) -> Sums {
        let [first, second] = &mut self.outs;
        let (answer, _) = run_pair(
            black_box(&self.chain),
            &self.sides,
            &State::default(),
            &mut self.store,
            &self.cells,
            [first, second],
            u32::MAX,
        );
        black_box(&self.outs);
        Sums::of_straight(answer)
    }

    /// Hands back what each run made.
    fn go(&mut self, way: Way) -> Vec<Sums> {
        let all = self.cells.len();
        match way {
            Way::TwoWhole => self.two_runs(all).to_vec(),
            Way::TwoPieces => self.two_runs(PIECE).to_vec(),
            Way::PairWhole => vec![self.pair_run(all)],
            Way::PairPieces => vec![self.pair_run(PIECE)],
            Way::RuleWhole => vec![self.rule()],
        }
    }

    /// Makes its runs on outputs of 0.
    fn go_afresh(&mut self, way: Way) -> (Vec<Sums>, [Vec<u32>; 2]) {
        self.outs.iter_mut().for_each(|out| out.fill(0));
        (self.go(way), self.outs.clone())
    }

    /// Every way makes the same words in the iterations that the windows have in common; two runs make more. Hands back the counts of the pair.
    fn check(&mut self) -> Sums {
        let (sums, outs) = self.go_afresh(Way::PairWhole);
        for way in [Way::PairPieces, Way::RuleWhole] {
            assert!(self.go_afresh(way) == (sums.clone(), outs.clone()));
        }
        let (two_sums, two_outs) = self.go_afresh(Way::TwoWhole);
        assert!(self.go_afresh(Way::TwoPieces) == (two_sums.clone(), two_outs.clone()));
        assert!(sums.iter().chain(&two_sums).all(|sums| sums.outcome == 0));
        for s in [0, 1] {
            let written = sums[0].firings * self.widths[s];
            assert!(self.words_in_common(s, &two_outs[s]) == outs[s][..written]);
        }
        sums[0]
    }

    /// Of what a window's own run wrote, the words of the pair's iterations.
    fn words_in_common(&self, s: usize, out: &[u32]) -> Vec<u32> {
        let common = centres(&self.chain);
        let firings = out.chunks_exact(self.widths[s]);
        centres(&self.own[s])
            .iter()
            .zip(firings)
            .filter(|(centre, _)| common.binary_search(centre).is_ok())
            .flat_map(|(_, words)| words.to_vec())
            .collect()
    }

    /// The nanoseconds that each way takes.
    fn time(&mut self) -> [f64; ALL.len()] {
        let lent = RefCell::new(self);
        let mut goes = ALL.map(|way| {
            let lent = &lent;
            move || {
                lent.borrow_mut().go(way);
            }
        });
        least(goes.each_mut().map(|go| go as &mut dyn FnMut()))
    }
}

fn planned_alone(grid: Grid, side: Side) -> Chain {
    let request = Request {
        grid,
        window: side.window,
        bounds: Bounds::none(),
        kernel: side.kernel,
    };
    plan(&request).expect("the window is accepted")
}

fn pair_of(chain: &Chain, sides: &[Side; 2]) -> zohmirka::Pair {
    let [first, second] = sides.each_ref().map(|side| zohmirka::Window {
        words: side_words(side),
    });
    zohmirka::Pair {
        chain: words_of(chain),
        first,
        second,
    }
}

/// The cells that the centre reads, iteration by iteration: they rise, and tell one iteration from another whatever the window.
fn centres(chain: &Chain) -> Vec<u32> {
    let shape = Shape::of_run(chain);
    let dims = chain.grid.dims();
    let zero = |&k: &usize| chain.window.offset(k, dims).iter().all(|&entry| entry == 0);
    let centre = (0..shape.count).find(zero).expect("there is a centre");
    let read = |number: i64| shape.reads(number)[centre];
    (0..shape.iterations).map(read).collect()
}

/// Two windows over one grid.
pub fn two_kernels() {
    let mut table = Table::new(&[
        "grid and windows",
        "n",
        "two runs, whole",
        "two runs, 64 cells",
        "pair, whole",
        "pair, 64 cells",
        "(a) whole",
        "pair / two runs, whole",
        "pair / two runs, 64 cells",
        "(a) / pair",
    ]);
    for (name, grid, sides) in pairs() {
        let mut lent = Lent::new(grid, sides);
        let clocks = lent.check().clocks;
        let times = lent.time();
        let [two, two_pieces, pair, pair_pieces, a] = times;
        let mut cells = vec![name.to_string(), lent.chain.window.count.to_string()];
        cells.extend(times.map(|nanos| per(nanos, clocks)));
        cells.extend([
            ratio(pair / two, pair <= two),
            ratio(pair_pieces / two_pieces, true),
            ratio(a / pair, true),
        ]);
        table.row(cells);
    }
    table.print("Two kernels on one chain, ns per clock of the pair: two runs, one after the other, each window on its own planned chain; and the pair, one run on the chain of all n references. All cells lent in one call (whole), and 64 cells a call; beside (a) the clock rule for the pair. The three points are a cell and its right and its left neighbour. Goal: pair / two runs, whole, at most 1; with 64 cells a call there is none.");
}
