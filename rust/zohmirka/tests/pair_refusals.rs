//! What turns a pair back: each number and their order, and words and lengths of any kind.
mod six;

use six::{counts, floats, planned, row, six, whole, window, CELLS};
use zohmirka::native::{self, Report};
use zohmirka::{Chain, Kernel, Outcome, Pair, Refusal, Request, State, Window, CHAIN_WORDS, STATE_WORDS, WINDOW_WORDS};

const MAX: u32 = u32::MAX;
const NAN: f32 = f32::NAN;

/// What planning and a run of a pair are refused by, in the order in which it is looked for: a pair with all of it wrong, put right one by one.
#[test]
fn refusals_in_their_order() {
    let mut pair = six();
    let (mut state, mut store) = (State::fresh(), vec![9; 1]);
    state.words[32] = 5;
    pair.chain.words[0] = 0;
    pair.chain.words[1] = 2;
    pair.chain.words[10] = 5;
    (pair.chain.words[201], pair.chain.words[202]) = (1, 9);
    pair.chain.words[134] = 16_385;
    // 33 references of which two are equal, and a factor that is none; difference without a centre.
    pair.first = window(&[0, 2, 2], Kernel::Scaled(NAN));
    pair.first.words[0] = 33;
    pair.second = window(&[1, 2], Kernel::Difference);
    let refused = |pair: &Pair, state: State, store: &[u32]| {
        let (mut s, mut t, mut first, mut second) = (state, store.to_vec(), [7; 9], [8; 9]);
        let answer = pair.run(&mut s, &mut t, &floats(CELLS), &mut first, &mut second, 99);
        assert_eq!((s, t.as_slice(), first, second), (state, store, [7; 9], [8; 9]));
        let planned = Pair::plan(&pair.chain, &pair.first, &pair.second).err();
        (planned.map_or(0, Refusal::number), answer.err().map_or(0, Refusal::number))
    };
    assert_eq!(refused(&pair, state, &store), (3, 3));
    pair.chain.words[0] = 1;
    assert_eq!(refused(&pair, state, &store), (4, 4));
    pair.first.words[0] = 3;
    assert_eq!(refused(&pair, state, &store), (5, 5));
    pair.first.words[0] = 2;
    assert_eq!(refused(&pair, state, &store), (6, 6));
    pair.chain.words[1] = 6;
    assert_eq!(refused(&pair, state, &store), (15, 15));
    pair.chain.words[201] = 0;
    // The second window's 7 comes before the first one's 8.
    assert_eq!(refused(&pair, state, &store), (7, 7));
    pair.second = window(&[1, 0], Kernel::Difference);
    assert_eq!(refused(&pair, state, &store), (8, 8));
    pair.first = window(&[0, 2], Kernel::Raw);
    // From here on planning finds nothing: capacities and references of the chain play no part in it.
    assert_eq!(refused(&pair, state, &store), (0, 9));
    pair.chain.words[134] = 1;
    assert_eq!(refused(&pair, state, &store), (0, 14));
    pair.chain.words[10] = 1;
    assert_eq!(refused(&pair, state, &store), (0, 10));
    store.push(9);
    assert_eq!(refused(&pair, state, &store), (0, 11));
    state.words[32] = 0;
    assert_eq!(pair.run(&mut state, &mut store, &floats(CELLS), &mut [0; 8], &mut [0; 4], 99), Ok(Outcome::Done(counts(6, 4, 6))));
}

/// What a fresh call on a pair is refused by.
fn number(pair: &Pair) -> u32 {
    let mut store = vec![0; 16_384];
    pair.run(&mut State::fresh(), &mut store, &[], &mut [], &mut [], 0).err().map_or(0, Refusal::number)
}

#[test]
fn number_3_and_16() {
    let one = window(&[0], Kernel::Raw);
    for (at, word) in [(0, 0), (0, 5), (0, 256), (0, MAX), (1, 0), (1, 1_048_577), (1, MAX)] {
        let mut pair = six();
        pair.chain.words[at] = word;
        assert_eq!((number(&pair), planned(&pair.chain, &one, &one)), (3, 3), "{at} {word}");
    }
    let skewed = Request::on_rows(&[(0, 3), (4095, 1024)]).reference(&[0, 0]).plan().unwrap();
    let one = Window::new(&[vec![0, 0]], Kernel::Raw);
    let pair = Pair::plan(&skewed, &one, &one).unwrap();
    assert_eq!(number(&pair), 0);
    let changes: [fn(&mut Chain); 7] =
        [|c| c.words[211] = 0, |c| c.words[211] = 513, |c| c.words[211] = 3, |c| c.rows[2] = 4096, |c| c.rows[3] = 1025, |c| c.rows[1] = 0, |c| c.rows.truncate(3)];
    for (at, change) in changes.iter().enumerate() {
        let mut other = pair.clone();
        change(&mut other.chain);
        assert_eq!((number(&other), planned(&other.chain, &one, &one)), (16, 16), "{at}");
    }
}

#[test]
fn number_4() {
    let (one, none) = (window(&[0], Kernel::Raw), window(&[], Kernel::Raw));
    assert_eq!((planned(&row(6), &none, &one), planned(&row(6), &one, &none), planned(&row(6), &none, &none)), (4, 4, 4));
    for count in [0, 33, 255, 256, 257, MAX] {
        let (mut first, mut second, mut chain) = (six(), six(), six());
        (first.first.words[0], second.second.words[0], chain.chain.words[5]) = (count, count, count);
        assert_eq!((number(&first), number(&second), number(&chain)), (4, 4, 4), "{count}");
        assert_eq!((planned(&row(6), &first.first, &one), planned(&row(6), &one, &second.second)), (4, 4));
        // The number of references of the chain plays no part in planning.
        assert_eq!(planned(&chain.chain, &one, &one), 0);
    }
    // The union of 16 and 16 references, of which none is the same, or one.
    let (low, high): (Vec<i16>, Vec<i16>) = ((0..16).collect(), (16..32).collect());
    let pair = Pair::plan(&row(40), &window(&low, Kernel::Raw), &window(&high, Kernel::Raw)).unwrap();
    assert_eq!((pair.chain.references(), number(&pair)), (32, 0));
    let more = window(&(16..33).collect::<Vec<i16>>(), Kernel::Raw);
    assert_eq!(planned(&row(40), &window(&low, Kernel::Raw), &more), 4);
    assert_eq!(number(&Pair { second: more.clone(), ..pair.clone() }), 4);
    assert_eq!(planned(&row(40), &window(&low[..15], Kernel::Raw), &more), 0);
    // The same 32 in both windows.
    let all = window(&(0..32).collect::<Vec<i16>>(), Kernel::Raw);
    assert_eq!(planned(&row(40), &all, &all), 0);
    // The union is counted where windows have twins: 33 is 4, and 32 is 5.
    let twins = |last: i16| window(&(1..31).chain([1, last]).collect::<Vec<i16>>(), Kernel::Raw);
    let two = window(&[0, 31], Kernel::Raw);
    assert_eq!((planned(&row(40), &twins(32), &two), planned(&row(40), &twins(31), &two)), (4, 5));
    let with = |first: Window| number(&Pair { first, second: two.clone(), ..pair.clone() });
    assert_eq!((with(twins(32)), with(twins(31))), (4, 5));
}

#[test]
fn number_5() {
    let (twins, one) = (window(&[2, 0, 2], Kernel::Raw), window(&[1], Kernel::Raw));
    assert_eq!((planned(&row(6), &twins, &one), planned(&row(6), &one, &twins), planned(&row(6), &twins, &twins)), (5, 5, 5));
    let pair = six();
    assert_eq!(number(&Pair { first: twins.clone(), ..pair.clone() }), 5);
    assert_eq!(number(&Pair { second: twins, ..pair.clone() }), 5);
    let mut chain = pair.clone();
    chain.chain.words[10] = 2;
    assert_eq!(number(&chain), 5);
    // By the low 16 bits, and by the grid's dimensions alone.
    let mut high = pair.clone();
    high.first.words[5] = 0x0001_0000;
    assert_eq!(number(&high), 5);
    let mut past = pair.clone();
    (past.first.words[2], past.first.words[8], past.first.words[9]) = (9, 9, 9);
    assert_eq!(number(&past), 0);
}

#[test]
fn numbers_6_and_15_go_by_the_union() {
    // Each window alone has iterations.
    let (left, right) = (window(&[-1], Kernel::Raw), window(&[1], Kernel::Raw));
    assert_eq!((planned(&row(2), &left, &left), planned(&row(2), &right, &right)), (0, 0));
    assert_eq!((planned(&row(2), &left, &right), planned(&row(3), &left, &right)), (6, 0));
    let mut pair = Pair::plan(&row(3), &left, &right).unwrap();
    pair.chain.words[1] = 2;
    assert_eq!(number(&pair), 6);
    // The one iteration is 1.
    for (lowest, highest, refusal) in [(1, 1, 0), (1, 2, 15), (0, 1, 15), (2, 1, 15), (0, 0, 15), (MAX, 1, 15), (1 << 31, MAX >> 1, 15)] {
        let mut pair = Pair::plan(&row(3), &left, &right).unwrap();
        (pair.chain.words[201], pair.chain.words[202], pair.chain.words[206]) = (9, lowest, highest);
        assert_eq!((number(&pair), planned(&pair.chain, &left, &right)), (refusal, refusal), "{lowest} {highest}");
    }
}

#[test]
fn numbers_7_and_8_go_by_each_window() {
    let blend = |a, b| Kernel::Blend { a, b };
    let finite = window(&[0, 1], blend(1.0, -1.0));
    for kernel in [Kernel::Difference, blend(0.5, 0.5), blend(NAN, 0.5)] {
        // The other window has the centre, and the chain too.
        let without = window(&[2, 1], kernel);
        assert_eq!((planned(&row(6), &without, &finite), planned(&row(6), &finite, &without)), (7, 7));
        let bad = window(&[0, 2], Kernel::Scaled(NAN));
        assert_eq!((planned(&row(6), &bad, &without), planned(&row(6), &without, &bad)), (7, 7));
        let mut pair = Pair::plan(&row(6), &finite, &window(&[2, 1], Kernel::Raw)).unwrap();
        assert_eq!(number(&pair), 0);
        pair.second = without.clone();
        assert_eq!(number(&pair), 7);
        (pair.first, pair.second) = (pair.second, bad);
        assert_eq!(number(&pair), 7);
    }
    for kernel in [Kernel::Scaled(f32::INFINITY), Kernel::Scaled(NAN), blend(f32::NEG_INFINITY, 0.0), blend(0.0, NAN)] {
        let bad = window(&[0, 2], kernel);
        assert_eq!((planned(&row(6), &bad, &finite), planned(&row(6), &finite, &bad)), (8, 8));
        assert_eq!(number(&Pair { first: bad.clone(), ..six() }), 8);
        assert_eq!(number(&Pair { first: window(&[2], Kernel::Raw), second: window(&[1, 0], kernel), ..six() }), 8);
    }
    for kernel in [4, 255, 256, MAX] {
        let mut pair = six();
        pair.second.words[129] = kernel;
        assert_eq!((number(&pair), planned(&row(6), &pair.first, &pair.second)), (8, 8));
    }
    // Factors that a kernel does not have play no part.
    let mut pair = six();
    (pair.first.words[130], pair.first.words[131], pair.second.words[131]) = (MAX, MAX, MAX);
    assert_eq!(whole(&pair, &floats(CELLS), [8, 4]), whole(&six(), &floats(CELLS), [8, 4]));
}

#[test]
fn numbers_9_and_14() {
    let one = |offset: i16| window(&[offset], Kernel::Raw);
    assert_eq!((planned(&row(20_000), &one(0), &one(16_384)), planned(&row(20_000), &one(0), &one(16_385))), (0, 9));
    let pair = six();
    let with = |changes: &[(usize, u32)]| {
        let mut other = pair.clone();
        changes.iter().for_each(|&(at, word)| other.chain.words[at] = word);
        number(&other)
    };
    assert_eq!((with(&[(134, 16_383)]), with(&[(134, 16_384)]), with(&[(134, MAX), (135, MAX)])), (0, 9, 9));
    // A reference that neither window has, in place of one or beside all; one that the chain lacks.
    assert_eq!((with(&[(10, 3)]), with(&[(5, 4), (18, 3)]), with(&[(5, 2)])), (14, 14, 14));
    // In another order they are the union all the same, and entries past the dimensions play no part.
    assert_eq!((with(&[(6, 0), (14, 2)]), with(&[(7, 5), (12, 6), (6, 0x0007_0002)])), (0, 0));
    // The references are compared, and not the positions that they read: (0, 5) and (1, 0) read the same one.
    let grid = Request::on_rectangle(&[4, 5]).reference(&[0, 0]).plan().unwrap();
    let mut pair = Pair::plan(&grid, &Window::new(&[vec![1, 0]], Kernel::Raw), &Window::new(&[vec![0, 0]], Kernel::Raw)).unwrap();
    pair.second = Window::new(&[vec![1, -5]], Kernel::Raw);
    assert_eq!(number(&pair), 14);
}

/// The words of `six`, for slices of other lengths.
fn parts() -> (Vec<u32>, Vec<u32>, Vec<u32>) {
    let pair = six();
    (pair.chain.words.to_vec(), pair.first.words.to_vec(), pair.second.words.to_vec())
}

#[test]
fn windows_and_chains_of_other_lengths() {
    let (mut chain, mut first, mut second) = parts();
    let plan = |grid: &[u32], first: &[u32], second: &[u32], places: usize| {
        let mut written = vec![5; places];
        let refusal = native::plan_pair(grid, &[], first, second, &mut written);
        assert!(refusal == 0 || written == vec![5; places]);
        refusal
    };
    let run = |chain: &[u32], first: &[u32], second: &[u32]| {
        let (mut state, mut store, mut one, mut two) = ([0; STATE_WORDS], [4; 2], [7; 8], [8; 4]);
        let report = native::run_pair(chain, &[], first, second, &mut state, &mut store, &floats(CELLS), &mut one, &mut two, 99);
        let untouched = (state, store, one, two) == ([0; STATE_WORDS], [4; 2], [7; 8], [8; 4]);
        assert_eq!((report.refusal != 0, report.outcome == 5), (untouched, untouched));
        report.refusal
    };
    for len in (0..CHAIN_WORDS).chain([CHAIN_WORDS, CHAIN_WORDS + 1]) {
        chain.resize(CHAIN_WORDS + 1, MAX);
        let refusal = if len < CHAIN_WORDS { 3 } else { 0 };
        assert_eq!((plan(&chain[..len], &first, &second, CHAIN_WORDS), run(&chain[..len], &first, &second)), (refusal, refusal), "{len}");
    }
    for len in (0..WINDOW_WORDS).chain([WINDOW_WORDS, WINDOW_WORDS + 1]) {
        first.resize(WINDOW_WORDS + 1, MAX);
        second.resize(WINDOW_WORDS + 1, MAX);
        let refusal = if len < WINDOW_WORDS { 4 } else { 0 };
        assert_eq!((plan(&chain, &first[..len], &second, CHAIN_WORDS), run(&chain, &first[..len], &second)), (refusal, refusal), "{len}");
        assert_eq!((plan(&chain, &first, &second[..len], CHAIN_WORDS), run(&chain, &first, &second[..len])), (refusal, refusal), "{len}");
        // A chain that is too short comes first.
        assert_eq!((plan(&[], &first[..len], &second, CHAIN_WORDS), run(&[], &first, &second[..len])), (3, 3));
    }
    // 12 comes last.
    for places in [0, 1, 168, CHAIN_WORDS - 1] {
        assert_eq!(plan(&chain, &first, &second, places), 12);
        assert_eq!((plan(&[], &first, &second, places), plan(&chain, &first, &[], places)), (3, 4));
        assert_eq!(plan(&row(20_000).words, &window(&[0], Kernel::Raw).words, &window(&[16_385], Kernel::Raw).words, places), 9);
    }
    let mut written = [5; CHAIN_WORDS + 3];
    assert_eq!(native::plan_pair(&chain, &[], &first, &second, &mut written), 0);
    assert_eq!((&written[..CHAIN_WORDS], &written[CHAIN_WORDS..]), (six().chain.words.as_slice(), [5; 3].as_slice()));
}

#[test]
fn states_and_stores_of_other_lengths() {
    let (chain, first, second) = parts();
    let run = |state: &mut [u32], store: &mut [u32], one: &mut [u32], two: &mut [u32]| {
        native::run_pair(&chain, &[], &first, &second, state, store, &floats(CELLS), one, two, 99)
    };
    let refused = |refusal: u32| Report { refusal, outcome: 5, cells: 0, firings: 0, clocks: 0 };
    for len in 0..STATE_WORDS {
        let (mut state, mut store, mut one, mut two) = (vec![0; len], [4; 2], [7; 8], [8; 4]);
        assert_eq!(run(&mut state, &mut store, &mut one, &mut two), refused(11));
        assert_eq!((state, store, one, two), (vec![0; len], [4; 2], [7; 8], [8; 4]));
    }
    for len in 0..2 {
        let (mut state, mut store, mut one, mut two) = (vec![9; len], vec![4; len], [7; 8], [8; 4]);
        assert_eq!(run(&mut state, &mut store, &mut one, &mut two), refused(10));
        assert_eq!((state, store, one, two), (vec![9; len], vec![4; len], [7; 8], [8; 4]));
    }
    // Counters past the chain's, and words past the state, the store and the words that are written, play no part and stay.
    let (mut state, mut store, mut one, mut two) = ([6; 40], [4; 5], [7; 9], [8; 9]);
    (state[0], state[1], state[2], state[32]) = (0, 0, 0, 0);
    assert_eq!(run(&mut state, &mut store, &mut one, &mut two), Report { refusal: 0, outcome: 0, cells: 6, firings: 4, clocks: 6 });
    let mut left = [6; 40];
    (left[0], left[1], left[2], left[32]) = (6, 5, 4, 4);
    assert_eq!((state, &store[2..], one[8], &two[4..]), (left, [4; 3].as_slice(), 7, [8; 5].as_slice()));
}

#[test]
fn words_of_any_kind_are_taken() {
    // Words that are mostly small, from a plain generator; what is refused changes nothing.
    let mut seed = 1u64;
    let mut word = || {
        seed = seed.wrapping_mul(6_364_136_223_846_793_005).wrapping_add(1_442_695_040_888_963_407);
        let high = (seed >> 33) as u32;
        if high % 5 == 0 {
            high.wrapping_mul(2_654_435_769)
        } else {
            high % 4
        }
    };
    let mut answers = [0; 17];
    for _ in 0..20_000 {
        let mut lent = |most: u32| (0..word() * 97 % (most + 1)).map(|_| 0).collect::<Vec<u32>>();
        let mut slices = [lent(220), lent(12), lent(140), lent(140), lent(40), lent(20), lent(9), lent(9), lent(9)];
        slices.iter_mut().for_each(|slice| slice.iter_mut().for_each(|place| *place = word()));
        let [chain, rows, first, second, mut state, mut store, cells, mut one, mut two] = slices;
        let before = (state.clone(), store.clone(), one.clone(), two.clone());
        let report = native::run_pair(&chain, &rows, &first, &second, &mut state, &mut store, &cells, &mut one, &mut two, word());
        answers[report.refusal as usize] += 1;
        assert_eq!(report.refusal != 0, report.outcome == 5);
        if report.refusal != 0 {
            assert_eq!(((state, store, one, two), report), (before, Report { cells: 0, firings: 0, clocks: 0, ..report }));
        }
        let mut to = vec![5; chain.len()];
        let refusal = native::plan_pair(&chain, &rows, &first, &second, &mut to);
        assert!(refusal <= 16 && (refusal == 0 || to.iter().all(|&place| place == 5)));
    }
    assert!(answers[3] > 0 && answers[4] > 0, "{answers:?}");
}
