use zohmirka::native::{self, Report};
use crate::round::{Differs, Round};
use crate::tally::Function;
use crate::words::{put_state, report_of, state_of, CHAIN_WORDS, STATE_WORDS};
use straight::{Answer, Chain, Refusal};

/// Words behind each lent part, which no call may change.
pub const BEHIND: usize = 8;

/// How the chain of a call is handed over.
#[derive(Clone, Copy)]
pub enum Given<'a> {
    Sheet(&'a [u8]),
    /// With the rows of a skewed grid beside them.
    Words(&'a [u32], &'a [u32]),
}

/// What a call writes, each with words behind the lent part.
#[derive(Clone)]
pub struct Lent {
    pub state: Vec<u32>,
    pub store: Vec<u32>,
    pub out: Vec<u32>,
}

/// How much of each is lent.
#[derive(Clone, Copy, Debug)]
pub struct Lengths {
    pub state: usize,
    pub store: usize,
    pub out: usize,
}

/// One call made by the library, by `straight` and through the safe interface. `chain` is what `straight` makes of what is given; `lent` is left as the call left it.
pub fn call(
    round: &mut Round,
    given: Given,
    chain: &Result<Chain, Refusal>,
    lent: &mut Lent,
    lengths: Lengths,
    cells: &[u32],
    allowance: u32,
) -> Result<Report, Differs> {
    round.note("call", || {
        let way = match given {
            Given::Sheet(_) => "run",
            Given::Words(..) => "run_chain",
        };
        format!("{way}, {lengths:?}, allowance {allowance}")
    });
    round.note_words("  state", &lent.state[..lengths.state]);
    round.note_words("  store", &lent.store[..lengths.store]);
    round.note_words("  cells", cells);

    let mut wanted = lent.clone();
    let want = straight_call(chain, &mut wanted, lengths, cells, allowance);
    let before = lent.clone();
    let state = &mut lent.state[..lengths.state];
    let store = &mut lent.store[..lengths.store];
    let out = &mut lent.out[..lengths.out];
    let (function, got) = match given {
        Given::Sheet(text) => (
            Function::Run,
            native::run(text, state, store, cells, out, allowance),
        ),
        Given::Words(words, rows) => (
            Function::RunChain,
            native::run_chain(words, rows, state, store, cells, out, allowance),
        ),
    };
    round.tally.count(function, want.refusal);
    if let Ok(chain) = chain {
        let fired = state_of(&before.state[..lengths.state]).fired;
        round.tally.count_row_end(chain, fired, want.refusal);
        if want.refusal == 0 {
            round.tally.count_run(chain, &want);
        }
    }
    round.note("  library", || format!("{got:?}"));
    round.same("report", &got, &want)?;
    same_lent(round, "", lent, &wanted)?;

    let mut safe = before;
    if let Some(report) = safe_call(given, &mut safe, lengths, cells, allowance) {
        round.same("safe report", &report, &want)?;
        same_lent(round, "safe ", &safe, &wanted)?;
    }
    Ok(got)
}

fn same_lent(round: &mut Round, way: &str, library: &Lent, straight: &Lent) -> Result<(), Differs> {
    let pairs = [
        ("state", &library.state, &straight.state),
        ("store", &library.store, &straight.store),
        ("output", &library.out, &straight.out),
    ];
    for (name, x, y) in pairs {
        round.same_at(&format!("{way}{name}"), x, y)?;
    }
    Ok(())
}

fn straight_call(
    chain: &Result<Chain, Refusal>,
    lent: &mut Lent,
    lengths: Lengths,
    cells: &[u32],
    allowance: u32,
) -> Report {
    let chain = match chain {
        Ok(chain) => chain,
        Err(refusal) => return report_of(Answer::Refused(*refusal)),
    };
    let state = state_of(&lent.state[..lengths.state]);
    let (answer, after) = straight::run(
        chain,
        &state,
        &mut lent.store[..lengths.store],
        cells,
        &mut lent.out[..lengths.out],
        allowance,
    );
    if let Answer::Ended(_) = answer {
        put_state(&after, &mut lent.state);
    }
    report_of(answer)
}

/// The same through the safe interface, where it can say it.
fn safe_call(
    given: Given,
    lent: &mut Lent,
    lengths: Lengths,
    cells: &[u32],
    allowance: u32,
) -> Option<Report> {
    if lengths.state != STATE_WORDS {
        return None;
    }
    let mut state = zohmirka::State::fresh();
    state.words.copy_from_slice(&lent.state[..STATE_WORDS]);
    let store = &mut lent.store[..lengths.store];
    let out = &mut lent.out[..lengths.out];
    let answer = match given {
        Given::Sheet(text) => zohmirka::run(text, &mut state, store, cells, out, allowance),
        Given::Words(words, rows) => {
            let chain = zohmirka::Chain {
                words: <[u32; CHAIN_WORDS]>::try_from(words).ok()?,
                rows: rows.to_vec(),
            };
            chain.run(&mut state, store, cells, out, allowance)
        }
    };
    lent.state[..STATE_WORDS].copy_from_slice(&state.words);
    Some(report_of_outcome(answer))
}

/// What the safe interface answers, as numbers.
pub fn report_of_outcome(answer: Result<zohmirka::Outcome, zohmirka::Refusal>) -> Report {
    match answer {
        Err(refusal) => Report {
            refusal: refusal.number(),
            outcome: 5,
            cells: 0,
            firings: 0,
            clocks: 0,
        },
        Ok(outcome) => {
            let counts = outcome.counts();
            Report {
                refusal: 0,
                outcome: match outcome {
                    zohmirka::Outcome::Done(_) => 0,
                    zohmirka::Outcome::Spent(_) => 1,
                    zohmirka::Outcome::Starved(_) => 2,
                    zohmirka::Outcome::Stalled(_) => 3,
                    zohmirka::Outcome::Full(_) => 4,
                },
                cells: counts.cells,
                firings: counts.firings,
                clocks: counts.clocks,
            }
        }
    }
}
