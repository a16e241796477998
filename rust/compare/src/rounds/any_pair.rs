use super::any_chain::{change, change_rows, past_counts};
use super::call::BEHIND;
use super::pair_call::{call, plan, PairLengths, PairLent};
use crate::dice::Dice;
use crate::pair_draft::{PairDraft, PairWords};
use crate::round::{Differs, Round};
use crate::words::{CHAIN_WORDS, STATE_WORDS, WINDOW_WORDS};
use straight::judge::capacity_sum;
use straight::judge_pair;

/// Any words of a chain and of two windows: planned, and run calls.
pub fn calls(round: &mut Round) -> Result<(), Differs> {
    let given = any_words(&mut round.dice);
    given.note(round);
    let dice = &mut round.dice;
    let room = match dice.below(6) {
        0 => dice.below(CHAIN_WORDS + BEHIND),
        _ => CHAIN_WORDS,
    };
    plan(round, &given, room)?;

    let value = given.value();
    let dice = &mut round.dice;
    let places = match judge_pair(&value, &given.sides()) {
        Ok(()) => capacity_sum(&value) as usize,
        Err(_) => dice.below(64),
    };
    let mut lent = PairLent {
        state: vec![0; STATE_WORDS + BEHIND],
        store: (0..places + BEHIND).map(|_| dice.word()).collect(),
        outs: [Vec::new(), Vec::new()],
    };
    for _ in 0..3 {
        let dice = &mut round.dice;
        if dice.one_in(10) {
            lent.state.fill_with(|| dice.word());
        }
        let lengths = PairLengths {
            state: if dice.one_in(20) {
                dice.below(STATE_WORDS + BEHIND)
            } else {
                STATE_WORDS
            },
            store: if dice.one_in(10) {
                dice.below(places + BEHIND)
            } else {
                places
            },
            outs: [dice.below(400), dice.below(400)],
        };
        lent.outs = lengths
            .outs
            .map(|places| vec![0x5A5A_5A5A; places + BEHIND]);
        let many = dice.below(300);
        let cells = dice.cells(many);
        let allowance = if dice.one_in(4) {
            dice.below(50) as u32
        } else {
            u32::MAX
        };
        let report = call(round, &given, &mut lent, lengths, &cells, allowance)?;
        if report.refusal != 0 && round.dice.one_in(2) {
            break;
        }
    }
    Ok(())
}

/// The words of a pair, with some of them changed, words past the counts filled at random, and slices of other lengths.
fn any_words(dice: &mut Dice) -> PairWords {
    let mut given = PairDraft::random(dice).words();
    if dice.one_in(2) {
        past_counts(dice, &mut given.chain);
    }
    if dice.one_in(2) {
        let dims = given.value().grid.dims().min(4);
        past_window(dice, &mut given.first, dims);
        past_window(dice, &mut given.second, dims);
    }
    for _ in 0..dice.below(3) {
        match dice.below(3) {
            0 => change(dice, &mut given.chain),
            1 => change_window(dice, &mut given.first),
            _ => change_window(dice, &mut given.second),
        }
    }
    if dice.one_in(8) {
        change_rows(dice, &mut given.chain, &mut given.rows);
    }
    for (words, whole) in [
        (&mut given.chain, CHAIN_WORDS),
        (&mut given.first, WINDOW_WORDS),
        (&mut given.second, WINDOW_WORDS),
    ] {
        match dice.below(60) {
            0 => words.truncate(dice.below(whole)),
            1 => words.truncate(whole - 1),
            2..=5 => words.extend((0..dice.below(20)).map(|_| dice.word())),
            6 => words.fill_with(|| dice.word()),
            _ => {}
        }
    }
    given
}

/// Fills the words that play no part on a grid of so many dimensions.
fn past_window(dice: &mut Dice, words: &mut [u32], dims: usize) {
    let n = (words[0] as usize).min(32);
    for k in 0..32 {
        let from = if k < n { dims } else { 0 };
        words[1 + 4 * k + from..5 + 4 * k].fill_with(|| dice.word());
        // The high half of an entry.
        for word in &mut words[1 + 4 * k..1 + 4 * k + from] {
            *word |= (dice.word() & dice.word()) << 16;
        }
    }
    if words[129] < 2 {
        words[130] = dice.word();
    }
    if words[129] < 3 {
        words[131] = dice.word();
    }
}

fn change_window(dice: &mut Dice, words: &mut [u32]) {
    match dice.below(6) {
        0 => words[0] = dice.pick(&[0, 1, 2, 31, 32, 33, 255, 256, 257, 258, u32::MAX]),
        1 => {
            let k = 1 + dice.below(128);
            words[k] = dice.pick(&[0, 1, 2, 0xFFFF, 0x8000, 0x7FFF, 0x0001_0000, u32::MAX]);
        }
        2 => words[129] = dice.pick(&[0, 1, 2, 3, 4, 255, 256, 257, u32::MAX]),
        3 => words[130 + dice.below(2)] = dice.float(),
        4 => {
            // Two references exchanged.
            let n = (words[0] as usize).clamp(1, 32);
            let (a, b) = (dice.below(n), dice.below(n));
            for d in 1..5 {
                words.swap(4 * a + d, 4 * b + d);
            }
        }
        _ => {
            let k = dice.below(words.len());
            words[k] = dice.word();
        }
    }
}
