//! Whole runs, call by call.
use crate::words::{chain_words, row_words};
use std::hint::black_box;
use straight::{Answer, Chain, State};

/// How many cells are lent in a short call.
pub const PIECE: usize = 64;

const STARVED: u8 = 2;

/// How a call or a run ended, and what it made.
#[derive(Clone, Copy, Debug, Default, PartialEq)]
pub struct Sums {
    pub outcome: u8,
    pub cells: usize,
    pub firings: usize,
    pub clocks: usize,
}

impl Sums {
    /// Of a call of the library.
    pub fn of_library(answer: Result<zohmirka::Outcome, zohmirka::Refusal>) -> Sums {
        let outcome = answer.expect("the call is accepted");
        let counts = outcome.counts();
        Sums {
            outcome: match outcome {
                zohmirka::Outcome::Done(_) => 0,
                zohmirka::Outcome::Starved(_) => STARVED,
                zohmirka::Outcome::Stalled(_) => 3,
                other => unreachable!("{other:?}"),
            },
            cells: counts.cells as usize,
            firings: counts.firings as usize,
            clocks: counts.clocks as usize,
        }
    }

    /// Of a call of `straight`.
    pub fn of_straight(answer: Answer) -> Sums {
        let Answer::Ended(outcome) = answer else {
            unreachable!("{answer:?}")
        };
        let counts = outcome.counts();
        Sums {
            outcome: outcome.index(),
            cells: counts.cells as usize,
            firings: counts.firings as usize,
            clocks: counts.clocks as usize,
        }
    }

    /// With a further call.
    fn and(self, call: Sums) -> Sums {
        Sums {
            outcome: call.outcome,
            cells: self.cells + call.cells,
            firings: self.firings + call.firings,
            clocks: self.clocks + call.clocks,
        }
    }
}

/// Makes calls until the run ends, `block` cells lent in each. `call` gets its cells and how many firings were made before it.
pub fn in_calls(cells: &[u32], block: usize, mut call: impl FnMut(&[u32], usize) -> Sums) -> Sums {
    let mut sums = Sums::default();
    loop {
        let upto = cells.len().min(sums.cells + block);
        sums = sums.and(call(&cells[sums.cells..upto], sums.firings));
        if sums.outcome != STARVED || upto == cells.len() {
            return sums;
        }
    }
}

/// A whole run of the library, the output from where the last call stopped on.
pub fn library_run(
    chain: &zohmirka::Chain,
    store: &mut [u32],
    cells: &[u32],
    out: &mut [u32],
    block: usize,
) -> Sums {
    let width = chain.width();
    let mut state = zohmirka::State::fresh();
    let sums = in_calls(cells, block, |cells, firings| {
        let out = &mut out[firings * width..];
        Sums::of_library(black_box(chain).run(&mut state, store, cells, out, u32::MAX))
    });
    black_box(out);
    sums
}

/// The same by `straight`, with so many words a firing.
pub fn straight_run(
    chain: &Chain,
    width: usize,
    store: &mut [u32],
    cells: &[u32],
    out: &mut [u32],
    block: usize,
) -> Sums {
    let mut state = State::default();
    let sums = in_calls(cells, block, |cells, firings| {
        let out = &mut out[firings * width..];
        let (answer, after) = straight::run(black_box(chain), &state, store, cells, out, u32::MAX);
        state = after;
        Sums::of_straight(answer)
    });
    black_box(out);
    sums
}

/// The chain as the library is given it.
pub fn words_of(chain: &Chain) -> zohmirka::Chain {
    zohmirka::Chain {
        words: chain_words(chain),
        rows: row_words(chain),
    }
}
