use super::call::{call, Given, Lengths, Lent, BEHIND};
use crate::damage::damage;
use crate::dice::Dice;
use crate::draft::Draft;
use crate::round::{Differs, Round};
use crate::words::{chain_words, row_words, STATE_WORDS};
use straight::judge::capacity_sum;
use straight::{judge_chain, Chain, Grid, Shape};

pub const DONE: u32 = 0;
pub const MOST_CELLS: usize = 4096;

/// A chain as planned or changed, then calls that lend as much as they like, with fresh, later, earlier and made-up states.
pub fn calls(round: &mut Round) -> Result<(), Differs> {
    let dice = &mut round.dice;
    let draft = Draft::random(dice);
    let mut text = draft.chain_text();
    if dice.one_in(20) {
        damage(dice, &mut text);
    }
    let chain = straight::read_chain(&text);
    let value = chain.unwrap_or(draft.chain().unwrap_or(Chain::blank()));
    let (words, rows) = (chain_words(&value), row_words(&value));
    let judged = judge_chain(&value);
    let accepted = chain.is_ok();
    round.note_text("chain", &text);
    round.note_words("chain words", &words);
    round.note_words("rows", &rows);

    let dice = &mut round.dice;
    let places = if accepted {
        capacity_sum(&value) as usize
    } else {
        64
    };
    let pool = dice.cells(MOST_CELLS);
    let mut lent = Lent {
        state: vec![0; STATE_WORDS + BEHIND],
        store: (0..places + BEHIND).map(|_| dice.word()).collect(),
        out: Vec::new(),
    };
    if dice.one_in(2) {
        for word in past_counters(&value, &mut lent.state) {
            *word = dice.word();
        }
    }
    let mut earlier = lent.state.clone();
    let count = if accepted { 1 + dice.below(30) } else { 2 };
    let patient = dice.one_in(2);
    for _ in 0..count {
        let dice = &mut round.dice;
        let kept = lent.state.clone();
        let strange = !patient && dice.one_in(5);
        if strange {
            if accepted {
                strange_state(dice, &value, &mut lent.state, &earlier);
            } else {
                lent.state[..STATE_WORDS].fill_with(|| dice.word());
            }
        } else if dice.one_in(4) {
            earlier = kept.clone();
        }
        if dice.one_in(40) {
            lent.store.fill_with(|| dice.word());
        }
        let many = many(dice);
        let lengths = Lengths {
            state: match dice.below(60) {
                0 => dice.below(STATE_WORDS),
                1 => STATE_WORDS + dice.below(BEHIND),
                _ => STATE_WORDS,
            },
            store: match dice.below(if patient { 60 } else { 20 }) {
                0 => dice.below(places + 1),
                1 => places.saturating_sub(1),
                2..=5 => places + dice.below(BEHIND),
                _ => places,
            },
            out: out_places(dice, &value, many),
        };
        lent.out = vec![0x5A5A_5A5A; lengths.out + BEHIND];
        let from = dice.below(pool.len() - many + 1);
        let allowance = allowance(dice);
        let (given, known) = if dice.one_in(3) {
            (Given::Sheet(&text), &chain)
        } else {
            (Given::Words(&words, &rows), &judged.map(|_| value))
        };
        let cells = &pool[from..from + many];
        let report = call(round, given, known, &mut lent, lengths, cells, allowance)?;
        let dice = &mut round.dice;
        if strange && (report.refusal != 0 || dice.one_in(2)) {
            lent.state = kept;
        }
        if report.outcome == DONE && dice.one_in(2) {
            lent.state[..value.window.count as usize].fill(0);
            lent.state[32] = 0;
        }
    }
    Ok(())
}

/// The counters past the chain's references, and the words past the state.
pub fn past_counters<'a>(chain: &Chain, state: &'a mut [u32]) -> impl Iterator<Item = &'a mut u32> {
    let n = (chain.window.count as usize).min(32);
    let (counters, rest) = state.split_at_mut(32);
    counters[n..].iter_mut().chain(rest[1..].iter_mut())
}

pub fn many(dice: &mut Dice) -> usize {
    match dice.below(10) {
        0 => 0,
        1..=2 => 1,
        3..=5 => dice.below(8),
        6..=7 => dice.below(100),
        8 => dice.below(800),
        _ => dice.below(MOST_CELLS + 1),
    }
}

pub fn allowance(dice: &mut Dice) -> u32 {
    match dice.below(10) {
        0 => 0,
        1..=2 => dice.below(6) as u32,
        3..=4 => dice.below(200) as u32,
        5 => dice.word(),
        _ => u32::MAX,
    }
}

fn out_places(dice: &mut Dice, chain: &Chain, many: usize) -> usize {
    let width = straight::kernel::words(&chain.kernel, chain.window.count.clamp(1, 32) as usize);
    match dice.below(8) {
        0 => 0,
        1 => width - 1,
        2 => width * dice.below(5) + dice.below(width),
        3 => dice.below(200),
        _ => width * many,
    }
}

/// A state that no call left: an earlier one, one with a word changed, any words, or one that 11 lets pass; on rows mostly the last.
pub fn strange_state(dice: &mut Dice, chain: &Chain, state: &mut [u32], earlier: &[u32]) {
    let n = chain.window.count as usize;
    let at = if dice.one_in(4) { 32 } else { dice.below(n) };
    let kinds = match chain.grid {
        Grid::Rectangle(_) => 8,
        Grid::Rows(_) => 20,
    };
    match dice.below(kinds) {
        0 => state.copy_from_slice(earlier),
        1 => state[at] = state[at].wrapping_add(1),
        2 => state[at] = state[at].wrapping_sub(1),
        3 => state[at] = dice.word(),
        4 => state[at] = dice.below(1_048_577) as u32,
        5 => state[..STATE_WORDS].fill(0),
        _ => made_up(dice, chain, state),
    }
}

/// Counters as 11 asks for them, whether a run reaches them or not; at times one step outside.
fn made_up(dice: &mut Dice, chain: &Chain, state: &mut [u32]) {
    let shape = Shape::of_run(chain);
    let n = shape.count;
    let any = dice.below(shape.iterations as usize + 1) as i64;
    let (fired, rare) = match dice.below(5) {
        0 => (shape.iterations, 100),
        1 => (dice.below(3) as i64, 100),
        // At the end of a row, or a firing before it or behind.
        2 | 3 => {
            let near = shape.row_end(any) + dice.between(-1, 1);
            (near.min(shape.iterations), 20)
        }
        _ => (any, 100),
    };
    state[32] = fired as u32;
    for k in (0..n).rev() {
        let mut low = 0;
        let mut high = shape.cells;
        if fired > 0 && fired <= shape.iterations {
            low = shape.position(k, fired - 1) + 1;
        }
        if fired < shape.iterations {
            high = high.min(shape.position(k, fired));
        }
        if k + 1 < n {
            low = low.max(state[k + 1] as i64);
            high = high.min(state[k + 1] as i64 + chain.capacities[k] as i64);
        }
        if dice.one_in(rare) {
            low -= 1;
        }
        if dice.one_in(rare) {
            high += 1;
        }
        state[k] = match dice.below(3) {
            _ if high <= low => low,
            0 => high,
            1 => low,
            _ => dice.between(low, high),
        } as u32;
    }
}
