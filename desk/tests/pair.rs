//! A map smoothed by two windows in one trip, beside the plain nested loop of each, and beside each smoothed alone.

mod loops;

use compare::dice::Dice;
use desk::commands::pair::both;
use desk::commands::smooth::smoothed;
use loops::{found, outside, Ground, Result, Side};
use zohmirka::{Pair, Refusal, Window};

/// Those of the results that belong to these iterations.
fn at(results: &[Result], iterations: &[(i64, i64)]) -> Vec<Result> {
    let belongs = |&&(i, j, _): &&Result| iterations.contains(&(i, j));
    results.iter().filter(belongs).copied().collect()
}

#[derive(Debug, Default)]
struct Met {
    compared: usize,
    slanted: usize,
    boxed: usize,
    /// Without an iteration in common.
    refused: usize,
    /// With an iteration outside the map.
    turned_back: usize,
    /// With fewer results than a window has alone.
    fewer: usize,
    /// Compared with a map that was smoothed alone.
    alone: usize,
}

impl Met {
    fn round(&mut self, dice: &mut Dice) {
        let ground = Ground::random(dice);
        let sides = [Side::random(dice), Side::random(dice)];
        let [Some(first), Some(second)] = sides.each_ref().map(|side| ground.looped(side)) else {
            return;
        };
        let map = ground.map();
        let chains = sides.each_ref().map(|side| side.chain(&ground, &map));
        let iterations =
            ground.iterations(&sides.each_ref().map(|side| &side.offsets[..]).concat());
        let windows = chains.each_ref().map(Window::of);
        let pair = match Pair::plan(&chains[0], &windows[0], &windows[1]) {
            Ok(pair) => pair,
            Err(refusal) => {
                assert_eq!((refusal, iterations.len()), (Refusal::NoIteration, 0));
                self.refused += 1;
                return;
            }
        };
        let (after, ran) = match both(&pair, &map) {
            Ok(both) => both,
            Err(fault) => {
                let place = outside(&ground, &iterations);
                assert!(fault.text().contains(&place), "{}", ground.table());
                self.turned_back += 1;
                return;
            }
        };
        assert_eq!(ran.firings as usize, iterations.len());
        for ((after, looped), chain) in after.iter().zip([first, second]).zip(&chains) {
            let found = found(&map, after);
            assert_eq!(found, at(&looped, &iterations), "{}", ground.table());
            assert_eq!(found.len(), iterations.len());
            self.compared += found.len();
            self.fewer += usize::from(looped.len() > found.len());
            if let Ok((alone, _)) = smoothed(chain, &map) {
                assert_eq!(found, at(&loops::found(&map, &alone), &iterations));
                self.alone += 1;
            }
        }
        self.slanted += usize::from(ground.is_slanted());
        self.boxed += usize::from(ground.bounds.is_some());
    }
}

#[test]
fn both_maps_are_smoothed_as_by_two_nested_loops() {
    let mut dice = Dice::new(19);
    let mut met = Met::default();
    for _ in 0..30_000 {
        met.round(&mut dice);
    }
    let often = met.slanted > 500 && met.boxed > 100 && met.refused > 100 && met.turned_back > 40;
    assert!(
        met.compared > 20_000 && often && met.fewer > 1000 && met.alone > 1000,
        "{met:?}"
    );
}
