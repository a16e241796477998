//! Random pairs of windows on one chain: in pieces, beside a loop over the iterations and beside the chain by itself.

mod dice;

use dice::Dice;
use straight::kernel::words;
use straight::*;

/// Different offsets, at least one.
fn some_offsets(dice: &mut Dice, dims: usize) -> Vec<Vec<i16>> {
    let mut offsets: Vec<Vec<i16>> = vec![];
    for _ in 0..=dice.roll(5) {
        let offset = (0..dims).map(|_| dice.roll(3) as i16 - 1).collect();
        if !offsets.contains(&offset) {
            offsets.push(offset);
        }
    }
    offsets
}

fn some_side(dice: &mut Dice, dims: usize) -> Side {
    let mut offsets = some_offsets(dice, dims);
    let kernel = match dice.roll(4) {
        0 => Kernel::Raw,
        1 => Kernel::Difference,
        2 => Kernel::Scaled(0.3),
        _ => Kernel::Blend(Factors { a: 0.25, b: -1.5 }),
    };
    let zero = vec![0; dims];
    if matches!(kernel, Kernel::Difference | Kernel::Blend(_)) && !offsets.contains(&zero) {
        offsets[0] = zero;
    }
    let offsets: Vec<&[i16]> = offsets.iter().map(|offset| &offset[..]).collect();
    Side::new(&offsets, kernel)
}

/// The words of one window, by a loop over the iterations of the union that hands over the cells of all its references.
fn loop_words(chain: &Chain, side: &Side, cells: &[u32]) -> Vec<u32> {
    let dims = chain.grid.dims();
    let n = chain.window.count as usize;
    let offset = |k: usize| chain.window.offset(k, dims);
    let author: Vec<usize> = (0..side.window.count as usize)
        .map(|t| (0..n).find(|&k| offset(k) == side.window.offset(t, dims)))
        .collect::<Option<_>>()
        .unwrap();
    let zero = |&k: &usize| offset(k).iter().all(|&entry| entry == 0);
    let centre = author.iter().copied().find(zero);
    let others = || author.iter().copied().filter(|&k| Some(k) != centre);
    let kernel = Kernel::Raw;
    let mut written = vec![];
    for heads in nested_words(&Chain { kernel, ..*chain }, cells).chunks(n) {
        let value = |k: usize| f32::from_bits(heads[k]);
        let middle = centre.map_or(f32::NAN, value);
        let result = match side.kernel {
            Kernel::Raw => {
                let own = (0..n).filter(|k| author.contains(k));
                written.extend(own.map(|k| heads[k]));
                continue;
            }
            Kernel::Difference => {
                let less = |k: usize| middle - value(k);
                sum(others().map(|k| less(k) * less(k)))
            }
            Kernel::Scaled(factor) => sum(author.iter().map(|&k| value(k))) * factor,
            Kernel::Blend(f) => f.a * middle + f.b * sum(others().map(value)),
        };
        written.push(result.to_bits());
    }
    written
}

/// From the first term on.
fn sum(mut terms: impl Iterator<Item = f32>) -> f32 {
    let first = terms.next().unwrap_or(0.0);
    terms.fold(first, |sum, term| sum + term)
}

/// Rows or a rectangle, of three or more cells each way.
fn some_grid(dice: &mut Dice) -> Grid {
    let dims = 1 + dice.roll(3) as usize;
    if dims == 2 && dice.roll(2) == 0 {
        let count = 3 + dice.roll(4);
        let row = |_| (dice.roll(4) as u16, 3 + dice.roll(6) as u16);
        return Grid::rows(&(0..count).map(row).collect::<Vec<_>>());
    }
    let size = |_| 3 + dice.roll(4) as u32;
    Grid::new(&(0..dims).map(size).collect::<Vec<_>>())
}

#[test]
fn random_pairs() {
    let mut dice = Dice(0x2_0006);
    let (mut whole, mut short) = (0, 0);
    for _ in 0..4000 {
        let grid = some_grid(&mut dice);
        let dims = grid.dims();
        let sides = [some_side(&mut dice, dims), some_side(&mut dice, dims)];
        let Ok(mut chain) = plan_pair(&grid, &Bounds::none(), &sides) else {
            continue;
        };
        if dice.roll(4) == 0 && chain.window.count > 1 {
            chain.capacities[0] -= 1;
        }
        let cells: Vec<u32> = (0..grid.cells())
            .map(|_| (dice.roll(1 << 24) as f32 * 0.001).to_bits())
            .collect();
        let want = [0, 1].map(|s| loop_words(&chain, &sides[s], &cells));
        let (answer, state, [first, second]) = pieces(&chain, &sides, &cells, &mut dice);
        // Cells, firings and clocks are those of the chain by itself.
        let mut store = vec![7; chain.given().iter().sum::<u32>() as usize];
        let mut out = vec![0; cells.len() * 32];
        let (alone, after) = run(
            &chain,
            &State::default(),
            &mut store,
            &cells,
            &mut out,
            u32::MAX,
        );
        assert_eq!((answer, state), (alone, after));
        let widths = sides.map(|side| words(&side.kernel, side.window.count as usize));
        let firings = state.fired as usize;
        assert!(
            first == want[0][..firings * widths[0]] && second == want[1][..firings * widths[1]]
        );
        match answer {
            Answer::Ended(Outcome::Done(_)) => whole += (first == want[0]) as u32,
            _ => short += 1,
        }
    }
    assert!(whole > 1000 && short > 200, "{whole} {short}");
}

/// Runs in random pieces up to Done or Stalled; the answer has the counts of all calls.
fn pieces(
    chain: &Chain,
    sides: &[Side; 2],
    cells: &[u32],
    dice: &mut Dice,
) -> (Answer, State, [Vec<u32>; 2]) {
    let widths = sides.map(|side| words(&side.kernel, side.window.count as usize));
    let mut store = vec![7; chain.given().iter().sum::<u32>() as usize];
    let (mut state, mut total) = (State::default(), Counts::default());
    let mut all = [vec![], vec![]];
    loop {
        let from = state.passed[0] as usize;
        let upto = (from + dice.roll(6) as usize).min(cells.len());
        let mut outs = [0; 2].map(|_| vec![5; dice.roll(30) as usize]);
        let [first, second] = &mut outs;
        let lent = [&mut first[..], &mut second[..]];
        let allowance = dice.roll(9) as u32;
        let (answer, next) = run_pair(
            chain,
            sides,
            &state,
            &mut store,
            &cells[from..upto],
            lent,
            allowance,
        );
        let made = answer.counts();
        for s in 0..2 {
            let written = made.firings as usize * widths[s];
            assert!(outs[s][written..].iter().all(|&word| word == 5));
            all[s].extend(&outs[s][..written]);
        }
        total.cells += made.cells;
        total.firings += made.firings;
        total.clocks += made.clocks;
        state = next;
        match answer {
            Answer::Ended(Outcome::Done(_)) => {
                return (Answer::Ended(Outcome::Done(total)), state, all)
            }
            Answer::Ended(Outcome::Stalled(_)) => {
                return (Answer::Ended(Outcome::Stalled(total)), state, all)
            }
            Answer::Ended(Outcome::Full(_)) => {
                let lacks =
                    |s: usize| outs[s].len() - made.firings as usize * widths[s] < widths[s];
                assert!(lacks(0) || lacks(1));
            }
            Answer::Ended(_) => {}
            Answer::Refused(refusal) => panic!("{refusal:?}"),
        }
    }
}
