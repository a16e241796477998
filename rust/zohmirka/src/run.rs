//! Run calls: how they end, and where a run stands between them.
use crate::refusal::accepted;
use crate::{checked, native, Refusal, STATE_WORDS};

/// What one call did.
#[derive(Clone, Copy, Debug, Default, PartialEq, Eq)]
pub struct Counts {
    pub cells: u32,
    pub firings: u32,
    pub clocks: u32,
}

/// How a call ends that is not refused. Before each clock these are looked at in this order, and the first that holds ends the call. So a call of allowance 0 on a run
/// that is not done ends Spent, and one that has a clock and is lent no cell ends Starved, also where the chain is stalled or the next clock would fire.
#[derive(Clone, Copy, Debug, PartialEq, Eq)]
pub enum Outcome {
    /// Every firing is made: each later call that is not refused ends Done too, with counts 0, whatever it is lent.
    Done(Counts),
    /// The call has made as many clocks as its allowance.
    Spent(Counts),
    /// Every lent cell was taken.
    Starved(Counts),
    /// Nothing would move: each later call that is not refused and is lent a clock and a cell ends Stalled too, with counts 0.
    Stalled(Counts),
    /// The next clock would fire, and fewer output places are left than it writes.
    Full(Counts),
}

impl Outcome {
    pub fn counts(self) -> Counts {
        match self {
            Outcome::Done(c) | Outcome::Spent(c) | Outcome::Starved(c) | Outcome::Stalled(c) | Outcome::Full(c) => c,
        }
    }
}

pub(crate) fn outcome_of(report: native::Report) -> Result<Outcome, Refusal> {
    accepted(report.refusal)?;
    let counts = Counts { cells: report.cells, firings: report.firings, clocks: report.clocks };
    Ok(match report.outcome {
        0 => Outcome::Done(counts),
        1 => Outcome::Spent(counts),
        2 => Outcome::Starved(counts),
        3 => Outcome::Stalled(counts),
        4 => Outcome::Full(counts),
        _ => unreachable!("the library's outcomes are 0 to 4"),
    })
}

/// Where a run stands: the input counters of filters 0 to 31, then the firings made. Counters of filters that the chain does not have play no part and stay.
#[derive(Clone, Copy, Debug, PartialEq, Eq)]
pub struct State {
    pub words: [u32; STATE_WORDS],
}

impl State {
    pub fn fresh() -> State {
        State { words: [0; STATE_WORDS] }
    }

    /// How many cells passed filter k's splitter.
    ///
    /// # Panics
    ///
    /// Where k is 32 or above: a state has 32 input counters, whatever the chain.
    pub fn passed(&self, k: usize) -> u32 {
        self.words[..STATE_WORDS - 1][k]
    }

    pub fn firings(&self) -> u32 {
        self.words[STATE_WORDS - 1]
    }
}

impl Default for State {
    fn default() -> State {
        State::fresh()
    }
}

/// A run call on the chain of a sheet, which is read anew in each call. The store of a fresh run may hold anything. `cells` are those of the stream from
/// `state.passed(0)` on; cells past the grid's last one are never taken.
///
/// A firing needs as many places of `out` as it writes words (raw: one for each reference, at most `FIRING_WORDS`), other clocks need none. A call that is lent fewer
/// makes no firing: where the next clock would fire it ends Full, and so does each later call that is lent as few, but Spent with no clock left and Starved with no
/// cell. Before such a clock it goes on, and a chain that stalls ends Stalled all the same.
pub fn run(sheet: &[u8], state: &mut State, store: &mut [u32], cells: &[u32], out: &mut [u32], allowance: u32) -> Result<Outcome, Refusal> {
    checked();
    outcome_of(native::run(sheet, &mut state.words, store, cells, out, allowance))
}
