//! Run calls: the library beside the clock rule in plain Rust and beside a nested loop over the grid.
use super::cases::{cells, other_chains, planned_chains, row, skewed_chains};
use super::runs::{library_run, straight_run, words_of, Sums, PIECE};
use super::table::{per, ratio, Table};
use super::timing::least;
use std::cell::RefCell;
use std::hint::black_box;
use straight::judge::capacity_sum;
use straight::kernel::words;
use straight::{Chain, Kernel, State};
use zohmirka::STATE_WORDS;

/// What is lent for a whole run.
struct Lent {
    chain: Chain,
    words: zohmirka::Chain,
    cells: Vec<u32>,
    store: Vec<u32>,
    out: Vec<u32>,
    width: usize,
}

/// How a run is made.
#[derive(Clone, Copy)]
enum Way {
    /// By the library, all cells lent in one call.
    Whole,
    /// By the library, `PIECE` cells a call.
    Pieces,
    /// (a): by `straight`, all cells lent in one call.
    RuleWhole,
    /// (a), `PIECE` cells a call.
    RulePieces,
    /// (b)
    Nested,
}

impl Way {
    fn named(name: &str) -> Way {
        match name {
            "whole" => Way::Whole,
            "64" => Way::Pieces,
            "a" => Way::RuleWhole,
            "a64" => Way::RulePieces,
            "b" => Way::Nested,
            _ => panic!("ways: whole, 64, a, a64, b"),
        }
    }
}

impl Lent {
    fn new(chain: Chain) -> Lent {
        let cells = cells(&chain.grid);
        let width = words(&chain.kernel, chain.window.count as usize);
        Lent {
            words: words_of(&chain),
            store: vec![0; capacity_sum(&chain) as usize],
            out: vec![0; cells.len() * width],
            cells,
            width,
            chain,
        }
    }

    /// A whole run of the library, `block` cells lent in a call.
    fn library(&mut self, block: usize) -> Sums {
        let (store, out) = (&mut self.store, &mut self.out);
        library_run(&self.words, store, &self.cells, out, block)
    }

    /// The same by `straight`.
    fn straight(&mut self, block: usize) -> Sums {
        let (store, out) = (&mut self.store, &mut self.out);
        straight_run(&self.chain, self.width, store, &self.cells, out, block)
    }

    /// By a nested loop over the grid; hands back the firings.
    fn nested(&mut self) -> usize {
        let written = straight::nested(black_box(&self.chain), &self.cells, &mut self.out);
        black_box(&self.out);
        written / self.width
    }

    /// Makes a run; of a nested loop the firings alone are counted.
    fn go(&mut self, way: Way) -> Sums {
        let all = self.cells.len();
        match way {
            Way::Whole => self.library(all),
            Way::Pieces => self.library(PIECE),
            Way::RuleWhole => self.straight(all),
            Way::RulePieces => self.straight(PIECE),
            Way::Nested => Sums {
                firings: self.nested(),
                ..Sums::default()
            },
        }
    }

    /// Makes a run on outputs of 0.
    fn go_afresh(&mut self, way: Way) -> (Sums, Vec<u32>) {
        self.out.fill(0);
        (self.go(way), self.out.clone())
    }

    /// Every way makes the same words and counts.
    fn check(&mut self) -> Sums {
        let (sums, out) = self.go_afresh(Way::Whole);
        for way in [Way::Pieces, Way::RuleWhole, Way::RulePieces] {
            assert!(self.go_afresh(way) == (sums, out.clone()));
        }
        if sums.outcome == 0 {
            let (nested, words) = self.go_afresh(Way::Nested);
            assert!(nested.firings == sums.firings && words == out);
        }
        sums
    }

    /// The nanoseconds that each way takes.
    fn time<const N: usize>(&mut self, ways: [Way; N]) -> [f64; N] {
        let lent = RefCell::new(self);
        let mut goes = ways.map(|way| {
            let lent = &lent;
            move || {
                lent.borrow_mut().go(way);
            }
        });
        least(goes.each_mut().map(|go| go as &mut dyn FnMut()))
    }
}

/// One way on a chain of the tables, `goes` times over, for a profile or a count of instructions. Hands back the clocks of one go, or the firings of a nested loop.
pub fn alone(name: &str, way: &str, goes: usize) -> usize {
    let mut chains = planned_chains();
    chains.extend(other_chains());
    chains.extend(skewed_chains());
    let chain = chains.into_iter().find(|(other, _)| other == name);
    let mut lent = Lent::new(chain.expect("a name of these tables").1);
    let way = Way::named(way);
    let mut sums = Sums::default();
    for _ in 0..goes {
        sums = lent.go(way);
    }
    match way {
        Way::Nested => sums.firings,
        _ => sums.clocks,
    }
}

const ALL: [Way; 5] = [
    Way::Whole,
    Way::Pieces,
    Way::RuleWhole,
    Way::RulePieces,
    Way::Nested,
];

/// The columns of their times.
const TIMES: [&str; 5] = ["whole", "64 cells", "(a) whole", "(a) 64 cells", "(b)"];

/// Planned chains: cases 1, 3, 4 and 5, raw and difference, and differences in other orders.
pub fn planned() {
    let ratios = ["(a) / whole", "whole / (b)", "64 cells / whole"];
    let mut table = Table::new(&[&["case", "n"], &TIMES[..], &ratios].concat());
    for (name, chain) in planned_chains() {
        let mut lent = Lent::new(chain);
        let clocks = lent.check().clocks;
        let times = lent.time(ALL);
        let [whole, pieces, a, _, b] = times;
        let mut cells = vec![name, chain.window.count.to_string()];
        cells.extend(times.map(|nanos| per(nanos, clocks)));
        cells.extend([
            ratio(a / whole, a >= 2.0 * whole),
            ratio(whole / b, whole <= 5.0 * b),
            ratio(pieces / whole, pieces <= 1.5 * whole),
        ]);
        table.row(cells);
    }
    table.print("Run call on planned chains, ns per clock: all cells lent in one call, and 64 cells a call; beside (a) the clock rule and (b) a nested loop. Goals: (a) / whole at least 2, whole / (b) at most 5, 64 cells / whole at most 1.5.");
}

/// Planned chains on rows.
pub fn skewed() {
    let counts = ["map and kernel", "places", "cells", "firings", "clocks"];
    let ratios = ["(a) / whole", "(a) / library, 64 cells"];
    let mut table = Table::new(&[&counts, &TIMES[..], &ratios].concat());
    for (name, chain) in skewed_chains() {
        let mut lent = Lent::new(chain);
        let sums = lent.check();
        assert_eq!(sums.outcome, 0);
        let times = lent.time(ALL);
        let [whole, pieces, a, a_pieces, _] = times;
        let mut cells = vec![name];
        let counts = [
            lent.store.len(),
            lent.cells.len(),
            sums.firings,
            sums.clocks,
        ];
        cells.extend(counts.map(|count| count.to_string()));
        cells.extend(times.map(|nanos| per(nanos, sums.clocks)));
        cells.extend([
            ratio(a / whole, a >= 1.5 * whole),
            ratio(a_pieces / pieces, a_pieces >= pieces),
        ]);
        table.row(cells);
    }
    table.print("Run call on rows, the five-point cross, ns per clock: all cells lent in one call, and 64 cells a call; beside (a) the clock rule and (b) a nested loop. Goals: (a) / whole at least 1.5; with 64 cells a call as fast as (a).");
}

/// Accepted chains that were not planned so.
pub fn others() {
    let mut table = Table::new(&[
        "chain",
        "n",
        "ends",
        "clocks",
        "whole",
        "64 cells",
        "(a) whole",
        "(a) 64 cells",
        "(a) / whole",
        "(a) / library, 64 cells",
    ]);
    for (name, chain) in other_chains() {
        let mut lent = Lent::new(chain);
        let sums = lent.check();
        let times = lent.time([Way::Whole, Way::Pieces, Way::RuleWhole, Way::RulePieces]);
        let [whole, pieces, a, a_pieces] = times;
        let mut cells = vec![
            name,
            chain.window.count.to_string(),
            ["Done", "Spent", "Starved", "Stalled", "Full"][sums.outcome as usize].to_string(),
            sums.clocks.to_string(),
        ];
        cells.extend(times.map(|nanos| per(nanos, sums.clocks)));
        cells.extend([
            ratio(a / whole, a >= whole),
            ratio(a_pieces / pieces, a_pieces >= pieces),
        ]);
        table.row(cells);
    }
    table.print("Run call on other accepted chains and long fillings, ns per clock. Goal: at least as fast as (a).");
}

/// Cost per clock by the number of references.
pub fn references() {
    let mut table = Table::new(&[
        "n",
        "raw",
        "raw / n",
        "difference",
        "difference / n",
        "(a) raw",
        "(a) difference",
    ]);
    for count in [1, 2, 4, 8, 16, 24, 32] {
        let mut cells = vec![count.to_string()];
        let mut peers = Vec::new();
        for kernel in [Kernel::Raw, Kernel::Difference] {
            let mut lent = Lent::new(row(count, 7, kernel));
            let clocks = lent.check().clocks;
            let [whole, a] = lent.time([Way::Whole, Way::RuleWhole]);
            cells.push(per(whole, clocks));
            cells.push(per(whole / count as f64, clocks));
            peers.push(per(a, clocks));
        }
        cells.extend(peers);
        table.row(cells);
    }
    table.print("Run call by the number of references, 7 cells apart in a row of 100,000, all cells lent, ns per clock. Goal: at most linear.");
}

/// A call that makes no clock: what a call costs before its clocks.
pub fn empty_calls() {
    let mut table = Table::new(&["chain", "n", "run_chain", "run (sheet)", "(a)", "(a) sheet"]);
    let mut chains = planned_chains();
    chains.push((
        "32 references in a row".to_string(),
        row(32, 7, Kernel::Raw),
    ));
    chains.extend(skewed_chains());
    const CALLS: usize = 2000;
    for (name, chain) in chains {
        let words = words_of(&chain);
        let text = straight::sheet::chain_text(&chain);
        let mut state = zohmirka::State {
            words: [0; STATE_WORDS],
        };
        let mut other = state;
        let places = capacity_sum(&chain) as usize;
        let (mut s, mut t) = (vec![0; places], vec![0; places]);
        let (mut u, mut v) = (vec![0; places], vec![0; places]);
        let fresh = State::default();
        let [value, sheet, a, a_sheet] = least([
            &mut || {
                for _ in 0..CALLS {
                    let _ = black_box(black_box(&words).run(&mut state, &mut s, &[], &mut [], 0));
                }
            },
            &mut || {
                for _ in 0..CALLS {
                    let text = black_box(&text);
                    let _ = black_box(zohmirka::run(text, &mut other, &mut t, &[], &mut [], 0));
                }
            },
            &mut || {
                for _ in 0..CALLS {
                    let chain = black_box(&chain);
                    black_box(straight::run(chain, &fresh, &mut u, &[], &mut [], 0));
                }
            },
            &mut || {
                for _ in 0..CALLS {
                    let chain = straight::read_chain(black_box(&text));
                    let chain = chain.expect("the sheet is accepted");
                    black_box(straight::run(&chain, &fresh, &mut v, &[], &mut [], 0));
                }
            },
        ]);
        table.row(vec![
            name,
            chain.window.count.to_string(),
            per(value, CALLS),
            per(sheet, CALLS),
            per(a, CALLS),
            per(a_sheet, CALLS),
        ]);
    }
    table.print("A call that makes no clock (allowance 0), ns per call.");
}
