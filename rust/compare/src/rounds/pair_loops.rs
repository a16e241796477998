use crate::dice::Dice;
use crate::draft::Draft;
use crate::ground::{Ground, Span};
use crate::pair_draft::{Half, PairDraft};
use crate::round::{Differs, Round};
use crate::words::{CHAIN_WORDS, STATE_WORDS};
use straight::plan_pair;
use zohmirka::native;

const MOST_CELLS: u128 = 4096;
const NOT_A_NUMBER: u32 = 0x7FC0_0000;

/// The library alone: two windows planned and run whole write what two loops over the iterations of the union do, each with its window's references in their author's
/// order; raw's in falling order.
pub fn words(round: &mut Round) -> Result<(), Differs> {
    let (pair, union) = small_pair(&mut round.dice);
    let given = pair.words();
    given.note(round);
    let ground = &union.ground;
    let count = ground.grid().map_or(0, |grid| grid.cells());
    let cells = round.dice.cells(count as usize);
    round.note_words("cells", &cells);
    let iterations = iterations(&union);
    let want = pair.halves.each_ref().map(|half| {
        let word = |iteration: &Vec<i64>| half_words(ground, half, iteration, &cells);
        iterations.iter().flat_map(word).collect::<Vec<u32>>()
    });

    let mut chain = [0; CHAIN_WORDS];
    let refusal = native::plan_pair(
        &given.chain,
        &given.rows,
        &given.first,
        &given.second,
        &mut chain,
    );
    round.same("plan_pair", &refusal, &0)?;
    let mut store = vec![0; chain[134..165].iter().sum::<u32>() as usize];
    let mut state = [0; STATE_WORDS];
    let [mut first, mut second] = want.each_ref().map(|words| vec![0; words.len()]);
    let report = native::run_pair(
        &chain,
        &given.rows,
        &given.first,
        &given.second,
        &mut state,
        &mut store,
        &cells,
        &mut first,
        &mut second,
        u32::MAX,
    );
    let answer = (report.refusal, report.outcome, report.firings as usize);
    round.same(
        "refusal, outcome and firings",
        &answer,
        &(0, 0, iterations.len()),
    )?;
    for (count, words) in round.tally.pairs.looped.iter_mut().zip(&want) {
        *count += words.len() as u64;
    }
    round.same_at("first output beside a loop", &first, &want[0])?;
    round.same_at("second output beside a loop", &second, &want[1])
}

/// A pair that is accepted, on a grid of at most `MOST_CELLS` cells; with a draft that has the references of both.
fn small_pair(dice: &mut Dice) -> (PairDraft, Draft) {
    loop {
        let pair = PairDraft::random(dice);
        let Some(grid) = pair.draft.ground.grid() else {
            continue;
        };
        let bounds = pair.draft.chain().map(|chain| chain.bounds);
        let Some(bounds) = bounds.filter(|_| grid.cells() <= MOST_CELLS) else {
            continue;
        };
        if plan_pair(&grid, &bounds, &pair.sides()).is_ok() {
            let union = Draft {
                offsets: pair
                    .halves
                    .each_ref()
                    .map(|half| half.offsets.clone())
                    .concat(),
                ..pair.draft.clone()
            };
            return (pair, union);
        }
    }
}

/// All iterations in order, or those of the box.
fn iterations(union: &Draft) -> Vec<Vec<i64>> {
    let ends: Vec<(i64, i64)> = match (&union.bounds, &union.ground) {
        (Some(ends), _) => ends
            .iter()
            .map(|&[low, high]| (low as i64, high as i64))
            .collect(),
        (None, Ground::Sizes(sizes)) => union.iterations(sizes),
        (None, Ground::Rows(_)) => {
            let row = |span: Span| (span.from..=span.to).map(move |column| vec![span.row, column]);
            let spans = union.ground.spans(&union.offsets);
            return spans.into_iter().flat_map(row).collect();
        }
    };
    let mut list = vec![vec![]];
    for (low, high) in ends {
        list = list
            .into_iter()
            .flat_map(|front: Vec<i64>| (low..=high).map(move |i| [&front[..], &[i]].concat()))
            .collect();
    }
    list
}

/// What a window's kernel writes in an iteration.
fn half_words(ground: &Ground, half: &Half, iteration: &[i64], cells: &[u32]) -> Vec<u32> {
    let read = |offset: &Vec<i16>| {
        let cell: Vec<i64> = iteration
            .iter()
            .zip(offset)
            .map(|(i, &o)| i + o as i64)
            .collect();
        cells[ground.position(&cell) as usize]
    };
    if half.kernel == 0 {
        let mut falling = half.offsets.clone();
        falling.sort_by(|a, b| b.cmp(a));
        return falling.iter().map(read).collect();
    }
    let zero = |offset: &&Vec<i16>| offset.iter().all(|&entry| entry == 0);
    let value = |offset: &Vec<i16>| f32::from_bits(read(offset));
    let centre = half.offsets.iter().find(zero).map_or(f32::NAN, value);
    let others = half
        .offsets
        .iter()
        .filter(|offset| !zero(offset))
        .map(value);
    let [a, b] = half.factors.map(f32::from_bits);
    let result = match half.kernel {
        1 => sum(others.map(|other| (centre - other) * (centre - other))),
        2 => sum(half.offsets.iter().map(value)) * a,
        _ => a * centre + b * sum(others),
    };
    vec![if result.is_nan() {
        NOT_A_NUMBER
    } else {
        result.to_bits()
    }]
}

/// From the first term on.
fn sum(mut terms: impl Iterator<Item = f32>) -> f32 {
    let first = terms.next().unwrap_or(0.0);
    terms.fold(first, |sum, term| sum + term)
}
