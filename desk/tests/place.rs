//! Where firings are placed, beside a search over all vectors around the grid.
use compare::dice::Dice;
use compare::draft::Draft;
use compare::ground::Ground;
use desk::place;
use zohmirka::Chain;

/// Every vector within reach of a small grid, in order.
fn vectors(low: &[i64], high: &[i64]) -> Vec<Vec<i64>> {
    let mut all = vec![vec![]];
    for (&low, &high) in low.iter().zip(high) {
        let longer = |vector: Vec<i64>| {
            (low..=high).map(move |entry| [vector.as_slice(), &[entry]].concat())
        };
        all = all.into_iter().flat_map(longer).collect();
    }
    all
}

fn inside(ground: &Ground, cell: &[i64]) -> bool {
    match ground {
        Ground::Sizes(sizes) => cell
            .iter()
            .zip(sizes)
            .all(|(&c, &size)| (0..i64::from(size)).contains(&c)),
        Ground::Rows(rows) => usize::try_from(cell[0])
            .ok()
            .and_then(|row| rows.get(row))
            .is_some_and(|&[start, length]| {
                (i64::from(start)..i64::from(start) + i64::from(length)).contains(&cell[1])
            }),
    }
}

/// Bounds within which every iteration lies: as far around the grid as an offset reaches.
fn around(draft: &Draft) -> (Vec<i64>, Vec<i64>) {
    let extents: Vec<i64> = match &draft.ground {
        Ground::Sizes(sizes) => sizes.iter().map(|&size| i64::from(size)).collect(),
        Ground::Rows(rows) => {
            let ends = rows.iter().map(|row| i64::from(row[0]) + i64::from(row[1]));
            vec![rows.len() as i64, ends.max().unwrap_or(0)]
        }
    };
    let reach = |d: usize| {
        let entries = draft
            .offsets
            .iter()
            .map(|offset| i64::from(offset[d]).abs());
        entries.max().unwrap_or(0)
    };
    let low = (0..extents.len()).map(|d| -reach(d)).collect();
    let high = (0..extents.len()).map(|d| extents[d] + reach(d)).collect();
    (low, high)
}

/// The iterations by their definition: each vector that stays inside with every offset added, and in
/// the box. None where that are too many vectors to look at.
fn searched(draft: &Draft) -> Option<Vec<Vec<i64>>> {
    let (low, high) = around(draft);
    let sides = low.iter().zip(&high).map(|(low, high)| high - low + 1);
    if sides.product::<i64>() > 60_000 {
        return None;
    }
    let reads = |vector: &[i64], offset: &[i16]| -> Vec<i64> {
        let sums = vector.iter().zip(offset).map(|(&v, &o)| v + i64::from(o));
        sums.collect()
    };
    let fits = |vector: &Vec<i64>| {
        let mut offsets = draft.offsets.iter();
        offsets.all(|offset| inside(&draft.ground, &reads(vector, offset)))
    };
    let within =
        |(&v, &[low, high]): (&i64, &[i32; 2])| (i64::from(low)..=i64::from(high)).contains(&v);
    let boxed = |vector: &Vec<i64>| match &draft.bounds {
        Some(ends) => vector.iter().zip(ends).all(within),
        None => true,
    };
    let all = vectors(&low, &high).into_iter();
    Some(all.filter(|vector| fits(vector) && boxed(vector)).collect())
}

#[test]
fn firings_are_placed_where_a_search_finds_them() {
    let mut dice = Dice::new(7);
    let (mut placed, mut boxed, mut skewed) = (0, 0, 0);
    let mut of_dimensions = [0; 5];
    while of_dimensions.iter().sum::<usize>() < 1500 {
        let draft = Draft::unplanned(&mut dice);
        let Ok(sheet) = zohmirka::plan(&draft.request_text()) else {
            continue;
        };
        let Some(expected) = searched(&draft) else {
            continue;
        };
        let chain = Chain::read(&sheet).unwrap();
        let found = place::iterations(&chain, chain.cells() as usize).unwrap();
        let wide = |index: &[i32]| index.iter().map(|&i| i64::from(i)).collect::<Vec<_>>();
        assert_eq!(
            found.iter().map(wide).collect::<Vec<_>>(),
            expected,
            "{draft:?}"
        );
        placed += expected.len();
        skewed += usize::from(matches!(draft.ground, Ground::Rows(_)));
        boxed += usize::from(draft.bounds.is_some());
        of_dimensions[draft.ground.dims()] += 1;
    }
    assert!(
        placed > 10_000 && skewed > 300 && boxed > 100,
        "{placed} {skewed} {boxed}"
    );
    assert!(
        of_dimensions[1..].iter().all(|&count| count > 50),
        "{of_dimensions:?}"
    );
}
