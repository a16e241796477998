//! Two kernels on one chain: plans and words worked out by hand, outputs that are full, calls in pieces, and windows.
mod six;

use six::{counts, floats, planned, row, six, whole, window, CELLS};
use zohmirka::{Chain, Counts, Kernel, Outcome, Pair, Request, State, Window, CHAIN_WORDS, WINDOW_WORDS};

/// What the run of `six` writes to each output.
const FIRST: [f32; 8] = [3.0, 1.0, 4.0, 2.0, 5.0, 3.0, 6.0, 4.0];
const SECOND: [f32; 4] = [3.0, 5.0, 7.0, 9.0];
const MAX: u32 = u32::MAX;

#[test]
fn the_chain_of_the_union() {
    let pair = six();
    assert_eq!(pair.chain.offsets(), [[2], [1], [0]]);
    assert_eq!((pair.chain.capacities(), pair.chain.order(), pair.chain.kernel()), ([1, 1].as_slice(), Some([0, 1, 2].as_slice()), Kernel::Raw));
    // Every word: one dimension of 6, three references, two capacities, raw, the chain order.
    let mut words = [0; CHAIN_WORDS];
    (words[0], words[1], words[5]) = (1, 6, 3);
    (words[6], words[10]) = (2, 1);
    (words[134], words[135]) = (1, 1);
    (words[168], words[170], words[171]) = (1, 1, 2);
    assert_eq!((pair.chain.words, pair.chain.rows.len()), (words, 0));
    assert_eq!(pair.chain.judge(), Ok(()));
    assert_eq!(pair.chain.write().unwrap(), b"010100000006\n020002\n020001\n020000\n0300000001\n0300000001\n06000102\n0400\n");
    // The order of the windows makes no difference, nor do references that both have, nor the order inside a window.
    let (a, b) = (window(&[2, 0, 1], Kernel::Raw), window(&[1, 2], Kernel::Scaled(0.0)));
    for (first, second) in [(&a, &b), (&b, &a), (&a, &a)] {
        assert_eq!(Pair::plan(&row(6), first, second).unwrap().chain.words, words);
    }
}

#[test]
fn each_output_gets_its_own_words() {
    let (outcome, first, second) = whole(&six(), &floats(CELLS), [8, 4]);
    assert_eq!(outcome, Ok(Outcome::Done(counts(6, 4, 6))));
    assert_eq!((first, second), (floats(FIRST).to_vec(), floats(SECOND).to_vec()));
    // Later places stay.
    let (outcome, first, second) = whole(&six(), &floats(CELLS), [11, 5]);
    assert_eq!(outcome, Ok(Outcome::Done(counts(6, 4, 6))));
    assert_eq!((&first[..8], &first[8..]), (floats(FIRST).as_slice(), [7; 3].as_slice()));
    assert_eq!((&second[..4], &second[4..]), (floats(SECOND).as_slice(), [8].as_slice()));
}

#[test]
fn terms_go_in_the_order_of_their_window() {
    // Cells 1, 1 and 2^24: which of them come first decides what the sum loses.
    let cells = floats([1.0, 1.0, 16_777_216.0]);
    let sum = Kernel::Scaled(1.0);
    for (offsets, word) in [([0, 1, 2], 0x4B80_0001), ([1, 0, 2], 0x4B80_0001), ([2, 1, 0], 0x4B80_0000), ([0, 2, 1], 0x4B80_0000)] {
        // Beside it the other order, and raw, which goes in chain order.
        let pair = Pair::plan(&row(3), &window(&offsets, sum), &window(&[0, 2, 1], Kernel::Raw)).unwrap();
        assert_eq!(whole(&pair, &cells, [1, 3]), (Ok(Outcome::Done(counts(3, 1, 3))), vec![word], floats([16_777_216.0, 1.0, 1.0]).to_vec()));
        let pair = Pair::plan(&row(3), &window(&[2, 1, 0], sum), &window(&offsets, sum)).unwrap();
        assert_eq!(whole(&pair, &cells, [1, 1]), (Ok(Outcome::Done(counts(3, 1, 3))), vec![0x4B80_0000], vec![word]));
    }
}

#[test]
fn every_kernel_beside_every_other() {
    // Cells 1, 2, 4 and 8, offsets -1, 0 and 1 for one window and 0 alone for the other: iterations 1 and 2.
    let cells = floats([1.0, 2.0, 4.0, 8.0]);
    let kernels = [Kernel::Raw, Kernel::Difference, Kernel::Scaled(0.5), Kernel::Blend { a: 2.0, b: -1.0 }];
    // Raw: right, centre, left. Difference: 1 + 4, 4 + 16. Scaled: half of 7, of 14. Blend: twice the centre less the others.
    let wide: [&[f32]; 4] = [&[4.0, 2.0, 1.0, 8.0, 4.0, 2.0], &[5.0, 20.0], &[3.5, 7.0], &[-1.0, -2.0]];
    // A sum of no terms is 0; 0 times -1 is -0, which adds nothing.
    let alone: [&[f32]; 4] = [&[2.0, 4.0], &[0.0, 0.0], &[1.0, 2.0], &[4.0, 8.0]];
    let words = |values: &[f32]| values.iter().map(|value| value.to_bits()).collect::<Vec<u32>>();
    for (one, &kernel) in kernels.iter().enumerate() {
        for (two, &other) in kernels.iter().enumerate() {
            let (three, centre) = (window(&[-1, 0, 1], kernel), window(&[0], other));
            let expected = (words(wide[one]), words(alone[two]));
            let pair = Pair::plan(&row(4), &three, &centre).unwrap();
            let (outcome, first, second) = whole(&pair, &cells, [expected.0.len(), expected.1.len()]);
            assert_eq!((outcome, first, second), (Ok(Outcome::Done(counts(4, 2, 4))), expected.0.clone(), expected.1.clone()));
            // The other way round.
            let pair = Pair::plan(&row(4), &centre, &three).unwrap();
            let (outcome, first, second) = whole(&pair, &cells, [expected.1.len(), expected.0.len()]);
            assert_eq!((outcome, first, second), (Ok(Outcome::Done(counts(4, 2, 4))), expected.1, expected.0));
        }
    }
}

#[test]
fn full_where_either_output_lacks_places() {
    // Firings write two places of the first output and one of the second.
    for places in 0..8 {
        let (outcome, first, second) = whole(&six(), &floats(CELLS), [places, 9]);
        let firings = places / 2;
        assert_eq!(outcome, Ok(Outcome::Full(counts(2 + firings as u32, firings as u32, 2 + firings as u32))));
        assert_eq!((&first[..2 * firings], &first[2 * firings..]), (&floats(FIRST)[..2 * firings], &[7; 8][..places - 2 * firings]));
        assert_eq!((&second[..firings], &second[firings..]), (&floats(SECOND)[..firings], &[8; 9][..9 - firings]));
    }
    for places in 0..4 {
        let (outcome, first, second) = whole(&six(), &floats(CELLS), [9, places]);
        assert_eq!(outcome, Ok(Outcome::Full(counts(2 + places as u32, places as u32, 2 + places as u32))));
        assert_eq!((&first[..2 * places], &first[2 * places..]), (&floats(FIRST)[..2 * places], &[7; 9][..9 - 2 * places]));
        assert_eq!(second, floats(SECOND)[..places]);
    }

    // Full again with zeros as long as either has too few, whatever the other has; but Spent and Starved come before it.
    let pair = six();
    let (mut state, mut store, cells) = (State::fresh(), [0; 2], floats(CELLS));
    assert_eq!(pair.run(&mut state, &mut store, &cells, &mut [], &mut [], 99), Ok(Outcome::Full(counts(2, 0, 2))));
    for (mut first, mut second) in [(vec![7; 1], vec![8; 4]), (vec![7; 8], vec![]), (vec![], vec![])] {
        let before = (state, store, first.clone(), second.clone());
        assert_eq!(pair.run(&mut state, &mut store, &cells[2..], &mut first, &mut second, 99), Ok(Outcome::Full(Counts::default())));
        assert_eq!(pair.run(&mut state, &mut store, &[], &mut first, &mut second, 99), Ok(Outcome::Starved(Counts::default())));
        assert_eq!(pair.run(&mut state, &mut store, &cells[2..], &mut first, &mut second, 0), Ok(Outcome::Spent(Counts::default())));
        assert_eq!((state, store, first, second), before);
    }
    let (mut first, mut second) = ([7; 3], [8; 9]);
    assert_eq!(pair.run(&mut state, &mut store, &cells[2..], &mut first, &mut second, 99), Ok(Outcome::Full(counts(1, 1, 1))));
    assert_eq!((first, second), ([3f32.to_bits(), 1f32.to_bits(), 7], [3f32.to_bits(), 8, 8, 8, 8, 8, 8, 8, 8]));
}

#[test]
fn calls_in_pieces_make_what_one_call_makes() {
    let (pair, cells) = (six(), floats(CELLS));
    for lent in 1..=6 {
        for allowance in 1..=4 {
            for places in [[2, 1], [3, 2], [8, 4]] {
                let (mut state, mut store) = (State::fresh(), [9; 2]);
                let (mut first, mut second, mut total) = (vec![], vec![], counts(0, 0, 0));
                for call in 0.. {
                    assert!(call < 20, "the run ends");
                    let at = state.passed(0) as usize;
                    let (mut one, mut two) = (vec![7; places[0]], vec![8; places[1]]);
                    let outcome = pair.run(&mut state, &mut store, &cells[at..(at + lent).min(6)], &mut one, &mut two, allowance).unwrap();
                    let made = outcome.counts();
                    let firings = made.firings as usize;
                    assert!(one[2 * firings..].iter().all(|&word| word == 7) && two[firings..].iter().all(|&word| word == 8));
                    first.extend_from_slice(&one[..2 * firings]);
                    second.extend_from_slice(&two[..firings]);
                    total = counts(total.cells + made.cells, total.firings + made.firings, total.clocks + made.clocks);
                    if let Outcome::Done(_) = outcome {
                        break;
                    }
                }
                assert_eq!((total, first, second), (counts(6, 4, 6), floats(FIRST).to_vec(), floats(SECOND).to_vec()));
                // Positions 5 and 4 are the last that were put into FIFO 0 and FIFO 1.
                assert_eq!((&state.words[..4], state.firings(), store), ([6, 5, 4, 0].as_slice(), 4, floats([6.0, 5.0])));
            }
        }
    }
    // Done again with zeros, whatever is lent.
    let (mut state, mut store) = (State::fresh(), [0; 2]);
    assert!(matches!(pair.run(&mut state, &mut store, &cells, &mut [0; 8], &mut [0; 4], 99), Ok(Outcome::Done(_))));
    for (lent, allowance) in [(0, 0), (0, 9), (6, 0), (6, 9)] {
        assert_eq!(pair.run(&mut state, &mut store, &cells[..lent], &mut [], &mut [], allowance), Ok(Outcome::Done(Counts::default())));
    }
}

#[test]
fn the_chain_s_own_kernel_and_order_play_no_part() {
    let pair = six();
    let expected = whole(&pair, &floats(CELLS), [8, 4]);
    let with = |changes: &[(usize, u32)]| {
        let mut other = pair.clone();
        changes.iter().for_each(|&(at, word)| other.chain.words[at] = word);
        whole(&other, &floats(CELLS), [8, 4])
    };
    // Infinite and no factors, no kernel, difference, blend; an order that is none, too long a one, none at all.
    for kernel in [[1, 0, 0], [2, 0x7F80_0000, 0], [2, 0x7FC0_0000, 0], [3, 0, 0xFF80_0000], [4, 0, 0], [MAX, MAX, MAX]] {
        assert_eq!(with(&[(165, kernel[0]), (166, kernel[1]), (167, kernel[2])]), expected);
    }
    for order in [[0, 0, 0], [2, 1, 0], [3, 9, 255], [MAX, 0, 256]] {
        assert_eq!(with(&[(169, order[0]), (170, order[1]), (171, order[2])]), expected);
    }
    assert_eq!(with(&[(168, 0)]), expected);
    assert_eq!(with(&[(168, MAX), (169, 7), (165, 9)]), expected);
    // Past the counts nothing plays a part either.
    assert_eq!(with(&[(2, 9), (7, 9), (18, 9), (136, 99_999), (202, 9), (211, 9)]), expected);
}

#[test]
fn the_chain_s_order_and_capacities_are_free() {
    let mut pair = six();
    // More places than needed.
    (pair.chain.words[134], pair.chain.words[135]) = (3, 2);
    assert_eq!(whole(&pair, &floats(CELLS), [8, 4]).0, Ok(Outcome::Done(counts(6, 4, 6))));
    // Without a place in FIFO 0 no cell moves on.
    (pair.chain.words[134], pair.chain.words[135]) = (0, 1);
    assert_eq!(whole(&pair, &floats(CELLS), [8, 4]), (Ok(Outcome::Stalled(counts(0, 0, 0))), vec![7; 8], vec![8; 4]));
    // The same references the other way round: filter 0 is presented the cell that it wants, and waits for the others.
    (pair.chain.words[6], pair.chain.words[14], pair.chain.words[134]) = (0, 2, 1);
    assert_eq!(whole(&pair, &floats(CELLS), [8, 4]).0, Ok(Outcome::Stalled(counts(0, 0, 0))));
}

#[test]
fn on_rows_and_in_a_box() {
    // Four rows of five cells, each a column further to the right than the one above. Rows 1 and 2 have iterations in columns 2 to 4 and 3 to 5.
    let grid = Request::on_rows(&[(0, 5), (1, 5), (2, 5), (3, 5)]).reference(&[0, 0]).plan().unwrap();
    let upright = Window::new(&[vec![0, 0], vec![1, 0]], Kernel::Raw);
    let others = Window::new(&[vec![-1, 0], vec![0, 1], vec![0, -1]], Kernel::Raw);
    let pair = Pair::plan(&grid, &upright, &others).unwrap();
    assert_eq!(pair.chain.offsets(), [[1, 0], [0, 1], [0, 0], [0, -1], [-1, 0]]);
    assert_eq!((pair.chain.rows.as_slice(), pair.chain.capacities()), ([0, 5, 1, 5, 2, 5, 3, 5].as_slice(), [3, 1, 1, 3].as_slice()));
    assert_eq!((&pair.chain.words[..5], &pair.chain.words[210..]), ([2, 0, 0, 0, 0].as_slice(), [1, 4].as_slice()));
    let cells: Vec<u32> = (1..=20).collect();
    // Below and centre; right, left and above.
    let first = [[11, 7], [12, 8], [13, 9], [16, 12], [17, 13], [18, 14]].concat();
    let second = [[8, 6, 3], [9, 7, 4], [10, 8, 5], [13, 11, 8], [14, 12, 9], [15, 13, 10]].concat();
    assert_eq!(whole(&pair, &cells, [12, 18]), (Ok(Outcome::Done(counts(18, 6, 18))), first.clone(), second.clone()));

    // Rows 1 and 2, columns 3 and 4: the second to the fifth firing. Numbers past the rows play no part and are not kept.
    let mut boxed = Request::on_rows(&[(0, 5), (1, 5), (2, 5), (3, 5)]).reference(&[0, 0]).bounds(&[(1, 2), (3, 4)]).plan().unwrap();
    boxed.rows.extend([9, 9, 9]);
    let pair = Pair::plan(&boxed, &upright, &others).unwrap();
    assert_eq!((pair.chain.bounds(), pair.chain.rows.len()), (Some(vec![(1, 2), (3, 4)]), 8));
    assert_eq!(whole(&pair, &cells, [8, 12]), (Ok(Outcome::Done(counts(17, 4, 17))), first[2..10].to_vec(), second[3..15].to_vec()));

    // On a rectangle: row 1, columns 2 and 3 of 4 by 5.
    let grid = Request::on_rectangle(&[4, 5]).reference(&[0, 0]).bounds(&[(1, 1), (2, 3)]).plan().unwrap();
    let pair = Pair::plan(&grid, &upright, &others).unwrap();
    assert_eq!(pair.chain.capacities(), [4, 1, 1, 4]);
    assert_eq!(whole(&pair, &cells, [4, 6]), (Ok(Outcome::Done(counts(14, 2, 14))), vec![13, 8, 14, 9], vec![9, 7, 3, 10, 8, 4]));
}

#[test]
fn of_the_grid_s_words_only_grid_and_box_play_a_part() {
    let (first, second) = (window(&[0, 2], Kernel::Raw), window(&[1, 0], Kernel::Scaled(1.0)));
    let mut grid = Chain { words: [MAX; CHAIN_WORDS], rows: vec![9; 5] };
    (grid.words[0], grid.words[1], grid.words[201], grid.words[210]) = (1, 6, 0, 0);
    let pair = Pair::plan(&grid, &first, &second).unwrap();
    assert_eq!((pair.chain.words, pair.chain.rows.len()), (six().chain.words, 0));
    // The box is copied as it stands, with 0 past the dimensions.
    (grid.words[201], grid.words[202], grid.words[206]) = (1 << 31, 1, 3);
    let boxed = Pair::plan(&grid, &first, &second).unwrap();
    assert_eq!(boxed.chain.words[201..], [1, 1, 0, 0, 0, 3, 0, 0, 0, 0, 0]);
    assert_eq!(boxed.chain.words[..201], six().chain.words[..201]);
    // Rows: dimension count and sizes play no part.
    let mut grid = Chain { words: [MAX; CHAIN_WORDS], rows: vec![2, 2, 2, 1, 2, 1, MAX] };
    (grid.words[201], grid.words[211]) = (0, 3);
    let (here, above) = (Window::new(&[vec![0, 0]], Kernel::Raw), Window::new(&[vec![-1, 0]], Kernel::Raw));
    let pair = Pair::plan(&grid, &here, &above).unwrap();
    let mut words = [0; CHAIN_WORDS];
    (words[0], words[5], words[10], words[134]) = (2, 2, 0xFFFF, 2);
    (words[168], words[170], words[210], words[211]) = (1, 1, 1, 3);
    assert_eq!((pair.chain.words, pair.chain.rows.as_slice()), (words, [2, 2, 2, 1, 2, 1].as_slice()));
    // The second firing is late: its newest cell is the fourth, in clock 4.
    assert_eq!(whole(&pair, &[1, 2, 3, 4], [2, 2]), (Ok(Outcome::Done(counts(4, 2, 5))), vec![3, 4], vec![1, 3]));
}

#[test]
fn windows_say_what_they_are() {
    let cross = Window::new(&[vec![0, 0], vec![-1, 32_767], vec![1, -32_768]], Kernel::Blend { a: 0.5, b: -2.0 });
    let mut words = [0; WINDOW_WORDS];
    words[0] = 3;
    (words[5], words[6], words[9], words[10]) = (0xFFFF, 0x7FFF, 1, 0x8000);
    (words[129], words[130], words[131]) = (3, 0x3F00_0000, 0xC000_0000);
    assert_eq!(cross.words, words);
    assert_eq!((cross.references(), cross.width(), cross.kernel()), (3, 1, Kernel::Blend { a: 0.5, b: -2.0 }));
    assert_eq!(cross.offsets(2), [[0, 0], [-1, 32_767], [1, -32_768]]);
    assert_eq!(cross.offsets(1), [[0], [-1], [1]]);
    assert_eq!(cross.offsets(9)[1], [-1, 32_767, 0, 0]);
    assert_eq!((window(&[4, 5], Kernel::Raw).width(), window(&[], Kernel::Raw).width(), window(&[4, 5], Kernel::Scaled(0.0)).width()), (2, 0, 1));
    // What has no room is refused by 4: 33 references, more than anyone counts, and five entries.
    let one = window(&[0], Kernel::Raw);
    let many = window(&(0..33).collect::<Vec<i16>>(), Kernel::Raw);
    assert_eq!((many.references(), many.offsets(1).len(), planned(&row(40), &many, &one)), (33, 32, 4));
    let crowd = window(&vec![0; 300], Kernel::Raw);
    assert_eq!((crowd.references(), planned(&row(40), &one, &crowd)), (255, 4));
    let long = Window::new(&[vec![0], vec![1, 0, 0, 0, 0]], Kernel::Raw);
    assert_eq!((long.references(), planned(&row(40), &long, &one)), (255, 4));
    // Missing entries are 0, and those past the dimensions play no part.
    assert_eq!(planned(&row(40), &Window::new(&[vec![], vec![1, 7]], Kernel::Raw), &one), 0);
    assert_eq!(planned(&row(40), &Window::new(&[vec![], vec![0, 7]], Kernel::Raw), &one), 5);
    let mut none = one.clone();
    none.words[129] = 4;
    assert!(matches!(none.kernel(), Kernel::Scaled(factor) if factor.is_nan()));
}

#[test]
fn the_window_of_a_chain() {
    // The author's order of Listing 1 of document 003, of which the plan makes the falling one.
    let request = Request::on_rectangle(&[4, 5]).kernel(Kernel::Scaled(0.25));
    let chain = [[0, -1], [0, 1], [-1, 0], [1, 0]].iter().fold(request, |request, offset| request.reference(offset)).plan().unwrap();
    let window = Window::of(&chain);
    assert_eq!((window.offsets(2), window.kernel()), (vec![vec![0, -1], vec![0, 1], vec![-1, 0], vec![1, 0]], Kernel::Scaled(0.25)));
    // Without an order in chain order, whatever its words hold.
    let mut without = chain.clone();
    (without.words[168], without.words[169]) = (0, 99);
    assert_eq!(Window::of(&without).offsets(2), [[1, 0], [0, 1], [0, -1], [-1, 0]]);
    // A pair of the window with itself runs as the chain does.
    let pair = Pair::plan(&chain, &window, &window).unwrap();
    let cells: Vec<u32> = (1..=20).map(|cell| (cell as f32).to_bits()).collect();
    let (mut store, mut out) = (vec![0; chain.places()], vec![0; 6]);
    let outcome = chain.run(&mut State::fresh(), &mut store, &cells, &mut out, 99);
    assert_eq!(whole(&pair, &cells, [6, 6]), (outcome, out.clone(), out));

    // Orders and counts that are refused of the chain are refused of the window too.
    for (at, word, refusal) in [(169, 4, 4), (169, MAX, 4), (170, 0, 5), (170, 2, 5), (5, 33, 4), (5, 0, 4), (165, 4, 8)] {
        let mut other = chain.clone();
        other.words[at] = word;
        let window = Window::of(&other);
        let alone = Window::new(&[vec![0, 0]], Kernel::Raw);
        assert_eq!(planned(&chain, &window, &alone), refusal, "{at} {word}");
    }
}

#[test]
fn pairs_are_compared_part_by_part() {
    let pair = six();
    assert_eq!(pair, pair.clone());
    assert_ne!(pair, Pair { first: window(&[2, 0], Kernel::Raw), ..pair.clone() });
    assert_ne!(pair, Pair { second: window(&[1, 0], Kernel::Scaled(2.0)), ..pair.clone() });
    assert_ne!(pair, Pair { chain: row(6), ..pair.clone() });
}
