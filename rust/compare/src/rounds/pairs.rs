use super::call::BEHIND;
use super::calls::{allowance, many, past_counters, strange_state, DONE, MOST_CELLS};
use super::pair_call::{call, plan, PairLengths, PairLent};
use crate::dice::Dice;
use crate::pair_draft::{PairDraft, PairWords};
use crate::pair_tally::MANY;
use crate::round::{Differs, Round};
use crate::words::{chain_words, CHAIN_WORDS, STATE_WORDS};
use straight::judge::capacity_sum;
use straight::{judge_pair, Side};

/// Two windows planned over a grid, whatever stands in the words that play no part.
pub fn planned(round: &mut Round) -> Result<(), Differs> {
    let dice = &mut round.dice;
    let mut given = PairDraft::unplanned(dice).words();
    if dice.one_in(2) {
        // References, capacities, kernel and order of the grid's words.
        given.chain[5..201].fill_with(|| dice.word());
    }
    let room = match dice.below(12) {
        0 => dice.below(CHAIN_WORDS),
        1 => CHAIN_WORDS - 1,
        2 => 0,
        3 => CHAIN_WORDS + dice.below(BEHIND),
        _ => CHAIN_WORDS,
    };
    given.note(round);
    plan(round, &given, room)?;
    Ok(())
}

/// Run calls of a pair, long ones among them.
pub fn calls(round: &mut Round) -> Result<(), Differs> {
    if round.dice.one_in(8) {
        long_calls(round)
    } else {
        short_calls(round)
    }
}

/// A chain as planned or changed with two windows, then calls that lend as much as they like, with fresh, later, earlier and made-up states.
fn short_calls(round: &mut Round) -> Result<(), Differs> {
    let dice = &mut round.dice;
    let mut given = PairDraft::random(dice).words();
    if dice.one_in(4) {
        as_planned(&mut given);
    }
    if dice.one_in(2) {
        own_kernel_and_order(dice, &mut given.chain);
    }
    if dice.one_in(5) {
        damage(dice, &mut given);
    }
    given.note(round);
    let (value, sides) = (given.value(), given.sides());
    let accepted = judge_pair(&value, &sides).is_ok();

    let dice = &mut round.dice;
    let places = if accepted {
        capacity_sum(&value) as usize
    } else {
        64
    };
    let pool = dice.cells(MOST_CELLS);
    let mut lent = PairLent {
        state: vec![0; STATE_WORDS + BEHIND],
        store: (0..places + BEHIND).map(|_| dice.word()).collect(),
        outs: [Vec::new(), Vec::new()],
    };
    if dice.one_in(2) {
        for word in past_counters(&value, &mut lent.state) {
            *word = dice.word();
        }
    }
    let mut earlier = lent.state.clone();
    let count = if accepted { 1 + dice.below(30) } else { 2 };
    let patient = dice.one_in(2);
    for _ in 0..count {
        let dice = &mut round.dice;
        let kept = lent.state.clone();
        let strange = accepted && !patient && dice.one_in(5);
        if strange {
            strange_state(dice, &value, &mut lent.state, &earlier);
        } else if dice.one_in(4) {
            earlier = kept.clone();
        }
        if accepted && dice.one_in(8) {
            // Kernels come with every call.
            other_kernels(dice, &mut given);
            given.note(round);
        }
        let dice = &mut round.dice;
        let many = many(dice);
        let lengths = lengths(dice, &given.sides(), places, many);
        lent.outs = lengths
            .outs
            .map(|places| vec![0x5A5A_5A5A; places + BEHIND]);
        let from = dice.below(pool.len() - many + 1);
        let allowance = allowance(dice);
        let cells = &pool[from..from + many];
        let report = call(round, &given, &mut lent, lengths, cells, allowance)?;
        let dice = &mut round.dice;
        if strange && (report.refusal != 0 || dice.one_in(2)) {
            lent.state = kept;
        }
        if report.outcome == DONE && dice.one_in(2) {
            lent.state[..value.window.count as usize].fill(0);
            lent.state[32] = 0;
        }
    }
    Ok(())
}

/// Calls that lend cells, places and clocks for about as many firings as read `MANY` cells or a multiple.
fn long_calls(round: &mut Round) -> Result<(), Differs> {
    let dice = &mut round.dice;
    let given = PairDraft::long(dice, MANY).words();
    given.note(round);
    let dice = &mut round.dice;
    let (value, sides) = (given.value(), given.sides());
    let block = MANY / value.window.count as usize;
    let (total, places) = (value.grid.cells() as usize, capacity_sum(&value) as usize);
    let pool = dice.cells(total);
    let mut lent = PairLent {
        state: vec![0; STATE_WORDS + BEHIND],
        store: (0..places + BEHIND).map(|_| dice.word()).collect(),
        outs: [Vec::new(), Vec::new()],
    };
    for _ in 0..1 + dice.below(4) {
        let dice = &mut round.dice;
        let left = &pool[(lent.state[0] as usize).min(total)..];
        // The clocks before the first firing are as many as there are places.
        let cells = places + some_firings(dice, block, total);
        let allowance = places + some_firings(dice, block, total);
        let lengths = PairLengths {
            state: STATE_WORDS,
            store: places,
            outs: sides.map(|side| width(&side) * some_firings(dice, block, total)),
        };
        lent.outs = lengths
            .outs
            .map(|places| vec![0x5A5A_5A5A; places + BEHIND]);
        let cells = &left[..cells.min(left.len())];
        call(round, &given, &mut lent, lengths, cells, allowance as u32)?;
    }
    Ok(())
}

/// Mostly all; else about as many as a multiple of `block`.
fn some_firings(dice: &mut Dice, block: usize, all: usize) -> usize {
    if !dice.one_in(3) {
        return all;
    }
    block * (1 + dice.below(3)) + dice.below(5) - 2
}

/// The chain that planning gives for the windows, where it gives one.
fn as_planned(given: &mut PairWords) {
    let grid = given.value();
    if let Ok(chain) = straight::plan_pair(&grid.grid, &grid.bounds, &given.sides()) {
        given.chain = chain_words(&chain).to_vec();
    }
}

fn own_kernel_and_order(dice: &mut Dice, chain: &mut [u32]) {
    chain[165] = dice.pick(&[0, 1, 2, 3, 4, u32::MAX]);
    chain[166..168].fill_with(|| dice.float());
    chain[168] = dice.pick(&[0, 1, 7, u32::MAX]);
    chain[169..201].fill_with(|| dice.pick(&[0, 1, 2, 31, 255, u32::MAX]));
}

/// Makes one of the chain's or a window's counts, entries or numbers another.
fn damage(dice: &mut Dice, given: &mut PairWords) {
    let window = match dice.below(2) {
        0 => &mut given.first,
        _ => &mut given.second,
    };
    match dice.below(12) {
        0 => given.chain[0] = dice.pick(&[0, 1, 2, 3, 4, 5]),
        1 => given.chain[1 + dice.below(2)] = dice.pick(&[0, 1, 2, 3, 1_048_577]),
        2 => given.chain[5] = dice.pick(&[0, 1, 2, 3, 32, 33, 255]),
        3 => window[0] = dice.pick(&[0, 1, 2, 3, 32, 33, 255]),
        4 => given.chain[6 + 4 * dice.below(4)] = dice.pick(&[0, 1, 2, 0xFFFF]),
        5 => window[1 + 4 * dice.below(4)] = dice.pick(&[0, 1, 2, 0xFFFF]),
        // Two equal references.
        6 => given.chain.copy_within(6..10, 10),
        7 => window.copy_within(1..5, 5),
        8 => given.chain[134 + dice.below(4)] = dice.pick(&[0, 16_384, 16_385, u32::MAX]),
        9 => {
            given.chain[201] = 1;
            given.chain[202 + dice.below(8)] = dice.pick(&[0, 1, 9, u32::MAX]);
        }
        10 if !given.rows.is_empty() => {
            let at = dice.below(given.rows.len());
            given.rows[at] = dice.pick(&[0, 1, 4096, 1025]);
        }
        _ => window[129 + dice.below(3)] = dice.pick(&[1, 3, 4, 0x7FC0_0000]),
    }
}

/// Other kernels that are accepted of the same references.
fn other_kernels(dice: &mut Dice, given: &mut PairWords) {
    let before = given.clone();
    for window in [&mut given.first, &mut given.second] {
        window[129] = dice.below(4) as u32;
        window[130..132].fill_with(|| dice.finite());
    }
    if judge_pair(&given.value(), &given.sides()).is_err() {
        *given = before;
    }
}

fn lengths(dice: &mut Dice, sides: &[Side; 2], places: usize, many: usize) -> PairLengths {
    let mut outs = sides.map(|side| out_places(dice, &side, many));
    if dice.one_in(4) {
        // Both end at the same firing.
        let firings = dice.below(5);
        outs = sides.map(|side| width(&side) * firings + dice.below(width(&side)));
    }
    PairLengths {
        state: match dice.below(60) {
            0 => dice.below(STATE_WORDS),
            1 => STATE_WORDS + dice.below(BEHIND),
            _ => STATE_WORDS,
        },
        store: match dice.below(40) {
            0 => dice.below(places + 1),
            1 => places.saturating_sub(1),
            2..=5 => places + dice.below(BEHIND),
            _ => places,
        },
        outs,
    }
}

/// The words that a firing writes to a window's output, at least 1.
fn width(side: &Side) -> usize {
    straight::kernel::words(&side.kernel, side.window.count.clamp(1, 32) as usize)
}

/// Mostly enough for as many firings as cells are lent.
fn out_places(dice: &mut Dice, side: &Side, many: usize) -> usize {
    let width = width(side);
    match dice.below(12) {
        0 => 0,
        1 => width - 1,
        2 => width * dice.below(5) + dice.below(width),
        3 => dice.below(200),
        _ => width * many,
    }
}
