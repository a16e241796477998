use super::call::{report_of_outcome, BEHIND};
use crate::pair_draft::PairWords;
use crate::round::{Differs, Round};
use crate::tally::Function;
use crate::words::{
    chain_of, chain_words, put_state, report_of, row_words, side_of, state_of, CHAIN_WORDS,
    STATE_WORDS, WINDOW_WORDS,
};
use straight::{Answer, Chain, Side};
use zohmirka::native::{self, Report};

const FILL: u32 = 0xA5A5_A5A5;

/// What a call on a pair writes, each with words behind the lent part.
#[derive(Clone)]
pub struct PairLent {
    pub state: Vec<u32>,
    pub store: Vec<u32>,
    pub outs: [Vec<u32>; 2],
}

/// How much of each is lent.
#[derive(Clone, Copy, Debug)]
pub struct PairLengths {
    pub state: usize,
    pub store: usize,
    pub outs: [usize; 2],
}

impl PairWords {
    /// The chain as `straight` takes the words.
    pub fn value(&self) -> Chain {
        chain_of(&self.chain, &self.rows)
    }

    /// The windows as `straight` takes the words.
    pub fn sides(&self) -> [Side; 2] {
        [side_of(&self.first), side_of(&self.second)]
    }

    /// The pair of the safe interface, where the lengths are its own.
    pub fn safe(&self) -> Option<zohmirka::Pair> {
        let window = |words: &[u32]| {
            let words = <[u32; WINDOW_WORDS]>::try_from(words).ok()?;
            Some(zohmirka::Window { words })
        };
        let chain = zohmirka::Chain {
            words: <[u32; CHAIN_WORDS]>::try_from(&self.chain[..]).ok()?,
            rows: self.rows.clone(),
        };
        Some(zohmirka::Pair {
            chain,
            first: window(&self.first)?,
            second: window(&self.second)?,
        })
    }

    pub fn note(&self, round: &mut Round) {
        round.note_words("chain words", &self.chain);
        round.note_words("rows", &self.rows);
        round.note_words("first window", &self.first);
        round.note_words("second window", &self.second);
    }
}

/// Planned by the library, by `straight` and through the safe interface, with so many places for the chain; the chain, where it is not refused.
pub fn plan(round: &mut Round, given: &PairWords, room: usize) -> Result<Option<Chain>, Differs> {
    round.note("places for the chain", || room.to_string());
    let (grid, sides) = (given.value(), given.sides());
    let planned = straight::plan_pair(&grid.grid, &grid.bounds, &sides);
    let (mut refusal, mut wanted) = (0, [FILL; CHAIN_WORDS + 2 * BEHIND]);
    match &planned {
        Err(turned_back) => refusal = turned_back.number() as u32,
        Ok(_) if room < CHAIN_WORDS => refusal = 12,
        Ok(chain) => wanted[..CHAIN_WORDS].copy_from_slice(&chain_words(chain)),
    }
    let mut words = [FILL; CHAIN_WORDS + 2 * BEHIND];
    let got = native::plan_pair(
        &given.chain,
        &given.rows,
        &given.first,
        &given.second,
        &mut words[..room],
    );
    round.tally.count(Function::PlanPair, refusal);
    round.tally.pairs.count_plan(&sides, &planned);
    round.same("plan_pair", &got, &refusal)?;
    round.same_at("plan_pair: words", &words, &wanted)?;

    if let Some(pair) = given.safe() {
        let safe = zohmirka::Pair::plan(&pair.chain, &pair.first, &pair.second);
        let safe = safe
            .map(|pair| (pair.chain.words, pair.chain.rows))
            .map_err(|refusal| refusal.number());
        let want = planned
            .map(|chain| (chain_words(&chain), row_words(&chain)))
            .map_err(|refusal| refusal.number() as u32);
        round.same("safe plan of a pair", &safe, &want)?;
    }
    Ok(planned.ok())
}

/// One call on a pair made by the library, by `straight` and through the safe interface; `lent` is left as the call left it.
pub fn call(
    round: &mut Round,
    given: &PairWords,
    lent: &mut PairLent,
    lengths: PairLengths,
    cells: &[u32],
    allowance: u32,
) -> Result<Report, Differs> {
    round.note("call", || {
        format!("run_pair, {lengths:?}, allowance {allowance}")
    });
    round.note_words("  state", &lent.state[..lengths.state]);
    round.note_words("  store", &lent.store[..lengths.store]);
    round.note_words("  cells", cells);

    let (chain, sides) = (given.value(), given.sides());
    let mut wanted = lent.clone();
    let want = straight_call(&chain, &sides, &mut wanted, lengths, cells, allowance);
    let before = lent.clone();
    let [first, second] = &mut lent.outs;
    let got = native::run_pair(
        &given.chain,
        &given.rows,
        &given.first,
        &given.second,
        &mut lent.state[..lengths.state],
        &mut lent.store[..lengths.store],
        cells,
        &mut first[..lengths.outs[0]],
        &mut second[..lengths.outs[1]],
        allowance,
    );
    round.tally.count(Function::RunPair, want.refusal);
    round
        .tally
        .pairs
        .count_call(&chain, &sides, &want, lengths.outs);
    round.note("  library", || format!("{got:?}"));
    round.same("report of a pair", &got, &want)?;
    same_lent(round, "", lent, &wanted)?;

    let mut safe = before;
    if let Some(report) = safe_call(given, &mut safe, lengths, cells, allowance) {
        round.same("safe report of a pair", &report, &want)?;
        same_lent(round, "safe ", &safe, &wanted)?;
    }
    Ok(got)
}

fn same_lent(
    round: &mut Round,
    way: &str,
    library: &PairLent,
    straight: &PairLent,
) -> Result<(), Differs> {
    let pairs = [
        ("state", &library.state, &straight.state),
        ("store", &library.store, &straight.store),
        ("first output", &library.outs[0], &straight.outs[0]),
        ("second output", &library.outs[1], &straight.outs[1]),
    ];
    for (name, x, y) in pairs {
        round.same_at(&format!("pair: {way}{name}"), x, y)?;
    }
    Ok(())
}

fn straight_call(
    chain: &Chain,
    sides: &[Side; 2],
    lent: &mut PairLent,
    lengths: PairLengths,
    cells: &[u32],
    allowance: u32,
) -> Report {
    let state = state_of(&lent.state[..lengths.state]);
    let [first, second] = &mut lent.outs;
    let outs = [
        &mut first[..lengths.outs[0]],
        &mut second[..lengths.outs[1]],
    ];
    let store = &mut lent.store[..lengths.store];
    let (answer, after) = straight::run_pair(chain, sides, &state, store, cells, outs, allowance);
    if let Answer::Ended(_) = answer {
        put_state(&after, &mut lent.state);
    }
    report_of(answer)
}

/// The same through the safe interface, where it can say it.
fn safe_call(
    given: &PairWords,
    lent: &mut PairLent,
    lengths: PairLengths,
    cells: &[u32],
    allowance: u32,
) -> Option<Report> {
    if lengths.state != STATE_WORDS {
        return None;
    }
    let pair = given.safe()?;
    let mut state = zohmirka::State::fresh();
    state.words.copy_from_slice(&lent.state[..STATE_WORDS]);
    let [first, second] = &mut lent.outs;
    let answer = pair.run(
        &mut state,
        &mut lent.store[..lengths.store],
        cells,
        &mut first[..lengths.outs[0]],
        &mut second[..lengths.outs[1]],
        allowance,
    );
    lent.state[..STATE_WORDS].copy_from_slice(&state.words);
    Some(report_of_outcome(answer))
}
