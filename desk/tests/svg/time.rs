use crate::xml::Element;
use crate::{any, ascii, font, picture};
use compare::dice::Dice;
use desk::svg::{time, Clock, Timeline};

/// Clocks in which one level of so many changes.
fn clocks(dice: &mut Dice, capacities: &[u32], count: usize, calm: usize) -> Vec<Clock> {
    let mut levels = vec![0; capacities.len()];
    let mut clocks = Vec::new();
    for _ in 0..count {
        for (level, capacity) in levels.iter_mut().zip(capacities) {
            if dice.one_in(calm) {
                *level = (dice.roll() % (u64::from(*capacity) + 1)) as u32;
            }
        }
        clocks.push(Clock {
            took: dice.one_in(2),
            fired: dice.one_in(3),
            levels: levels.clone(),
        });
    }
    clocks
}

/// The value of each clock that a lane's bars tell, checked with their heights.
fn lane(group: &Element, first: u64, count: usize) -> Vec<u32> {
    let mut values = vec![0; count];
    for bar in &group.children {
        let (x, width) = (
            bar.number("x").unwrap() as usize,
            bar.number("width").unwrap() as usize,
        );
        let (from, to) = (first + x as u64, first + (x + width) as u64 - 1);
        let (when, what) = bar.child("title").unwrap().text.split_once(": ").unwrap();
        let expected = if from == to {
            format!("clock {from}")
        } else {
            format!("clocks {from} to {to}")
        };
        assert_eq!(when, expected);
        let (value, capacity): (u32, u32) = match what.split_once(" of ") {
            Some((value, capacity)) => (value.parse().unwrap(), capacity.parse().unwrap()),
            None => (1, 1),
        };
        let height = bar.number("height").unwrap();
        let share = f64::from(value) / f64::from(capacity);
        assert!(
            (height - (18.0 * share).max(1.0)).abs() <= 0.006,
            "{height} for {share}"
        );
        assert!((bar.number("y").unwrap() + height - 18.0).abs() <= 0.011);
        for clock in &mut values[x..x + width] {
            assert_eq!(std::mem::replace(clock, value), 0);
        }
    }
    values
}

#[test]
fn runs_are_read_back() {
    let mut dice = Dice::new(3206);
    for _ in 0..300 {
        let most = dice.pick(&[1, 5, 1000, u32::MAX]);
        let fifos = dice.below(32);
        let capacities: Vec<u32> = (0..fifos).map(|_| 1 + dice.word() % most).collect();
        let calm = dice.pick(&[1, 3, 50]);
        let longest = dice.pick(&[2, 30, 250]);
        let count = dice.below(longest);
        let clocks = clocks(&mut dice, &capacities, count, calm);
        let first = dice.pick(&[0, 1, 12_345, 1 << 40]);
        let (title, note) = (ascii(&mut dice, 100), ascii(&mut dice, 150));
        let timeline = Timeline {
            title: &title,
            first,
            capacities: &capacities,
            clocks: &clocks,
            note: &note,
        };
        let root = picture(&time(&timeline));
        let texts = font::texts(&root);
        let lanes: Vec<Vec<u32>> = root
            .all("g")
            .into_iter()
            .map(|group| lane(group, first, count))
            .collect();
        assert_eq!(lanes.len(), 2 + capacities.len());
        let took = clocks.iter().map(|clock| u32::from(clock.took));
        let fired = clocks.iter().map(|clock| u32::from(clock.fired));
        assert!(lanes[0].iter().copied().eq(took));
        assert!(lanes[1].iter().copied().eq(fired));
        for (k, lane) in lanes[2..].iter().enumerate() {
            assert!(lane
                .iter()
                .copied()
                .eq(clocks.iter().map(|clock| clock.levels[k])));
            let name = format!("FIFO {k} of {}", capacities[k]);
            assert!(texts.iter().any(|words| words.text == name));
        }
        // A wide letter takes 11 at most, and texts may widen the page to 900.
        let whole = texts.iter().any(|words| words.text == note);
        assert!(whole || note.is_empty() || note.len() > 80, "{note}");
        let numbered = |number: u64| texts.iter().any(|words| words.text == number.to_string());
        assert!(count == 0 || (first..first + count as u64).any(numbered));
    }
}

#[test]
fn long_runs_stay_small() {
    let mut dice = Dice::new(3207);
    for calm in [false, true] {
        let capacities = [1000; 31];
        let mut clocks = clocks(&mut dice, &capacities, 4000, 1);
        if calm {
            // As in a run: each FIFO fills, one after the other, and stays full.
            for (t, clock) in clocks.iter_mut().enumerate() {
                clock.levels = (0..31)
                    .map(|k| (t as u32).saturating_sub(1000 * k).min(100))
                    .collect();
            }
        }
        let timeline = Timeline {
            title: "long",
            first: 0,
            capacities: &capacities,
            clocks: &clocks,
            note: "",
        };
        let document = time(&timeline);
        assert!(document.len() < 1_100_000, "{}", document.len());
        let root = picture(&document);
        let joined = font::texts(&root)
            .iter()
            .any(|words| words.text.contains("drawn as one"));
        assert_eq!(joined, !calm);
        if calm {
            for (k, group) in root.all("g").into_iter().skip(2).enumerate() {
                let values = lane(group, 0, 4000);
                assert!(values
                    .into_iter()
                    .eq(clocks.iter().map(|clock| clock.levels[k])));
            }
        }
    }
}

#[test]
fn joined_clocks_have_their_highest_level() {
    // Two FIFOs that change with each clock: 12,000 bars and more, so two clocks are drawn as one.
    let clock = |t: u32| Clock {
        took: true,
        fired: t.is_multiple_of(5),
        levels: vec![1 + t % 7, 1 + t % 3],
    };
    let clocks: Vec<Clock> = (0..6000).map(clock).collect();
    let timeline = Timeline {
        title: "",
        first: 0,
        capacities: &[7, 3],
        clocks: &clocks,
        note: "",
    };
    let root = picture(&time(&timeline));
    let group = root.all("g")[2];
    let titles: Vec<&str> = group
        .children
        .iter()
        .map(|bar| &bar.child("title").unwrap().text[..])
        .take(4)
        .collect();
    // The levels 1 2, 3 4, 5 6, 7 1, 2 3, ..
    let expected = [
        "clocks 0 to 1: at most 2 of 7",
        "clocks 2 to 3: at most 4 of 7",
        "clocks 4 to 5: at most 6 of 7",
        "clocks 6 to 7: at most 7 of 7",
    ];
    assert_eq!(titles, expected);
    let taken = &root.all("g")[0].children;
    assert_eq!(taken.len(), 1);
    let words = "clocks 0 to 5999: cell taken, at least once in 2 clocks";
    assert_eq!(taken[0].child("title").unwrap().text, words);
}

#[test]
fn timelines_of_any_texts_and_lengths() {
    let mut dice = Dice::new(3208);
    for _ in 0..1000 {
        let capacities: Vec<u32> = (0..dice.below(40)).map(|_| dice.float()).collect();
        let clock = |dice: &mut Dice| Clock {
            took: dice.one_in(2),
            fired: dice.one_in(2),
            levels: (0..dice.below(40)).map(|_| dice.word()).collect(),
        };
        let clocks: Vec<Clock> = (0..dice.below(30)).map(|_| clock(&mut dice)).collect();
        let document = time(&Timeline {
            title: &any(&mut dice, 300),
            first: dice.pick(&[0, 5, u64::MAX - 3, u64::MAX]),
            capacities: &capacities,
            clocks: &clocks,
            note: &any(&mut dice, 300),
        });
        picture(&document);
    }
}
