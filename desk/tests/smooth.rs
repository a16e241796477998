//! A map smoothed, beside the plain nested loop over it.

mod loops;

use compare::dice::Dice;
use desk::commands::smooth::smoothed;
use loops::{found, outside, Ground, Side};

#[test]
fn maps_are_smoothed_as_by_the_nested_loop() {
    let mut dice = Dice::new(17);
    let (mut compared, mut slanted, mut turned_back, mut boxed) = (0, 0, 0, 0);
    for _ in 0..6000 {
        let (ground, side) = (Ground::random(&mut dice), Side::random(&mut dice));
        let Some(expected) = ground.looped(&side) else {
            continue;
        };
        let map = ground.map();
        let after = match smoothed(&side.chain(&ground, &map), &map) {
            Ok((after, _)) => after,
            Err(fault) => {
                let place = outside(&ground, &ground.iterations(&side.offsets));
                assert!(fault.text().contains(&place), "{}", ground.table());
                turned_back += 1;
                continue;
            }
        };
        assert_eq!(found(&map, &after), expected, "{}", ground.table());
        compared += expected.len();
        slanted += usize::from(ground.is_slanted());
        boxed += usize::from(ground.bounds.is_some());
    }
    assert!(
        compared > 20_000 && slanted > 500 && turned_back > 100 && boxed > 100,
        "{compared} compared, {slanted} slanted, {turned_back} outside, {boxed} boxed"
    );
}
