//! Two kernels on one chain (document 02, request 6), worked out by hand.

use straight::*;

/// The five-point cross in two windows: a cell with its left and its right neighbour, and the cells below and above it.
const LEVEL: [&[i16]; 3] = [&[0, 0], &[0, -1], &[0, 1]];
const UPRIGHT: [&[i16]; 2] = [&[-1, 0], &[1, 0]];

fn counts(cells: u32, firings: u32, clocks: u32) -> Counts {
    Counts {
        cells,
        firings,
        clocks,
    }
}

fn done(cells: u32, firings: u32, clocks: u32) -> Answer {
    Answer::Ended(Outcome::Done(counts(cells, firings, clocks)))
}

fn floats(values: &[f32]) -> Vec<u32> {
    values.iter().map(|value| value.to_bits()).collect()
}

fn planned(sizes: &[u32], sides: &[Side; 2]) -> Result<Chain, u8> {
    plan_pair(&Grid::new(sizes), &Bounds::none(), sides).map_err(|refusal| refusal.number())
}

/// What one call on a fresh state answers and leaves in outputs of so many places.
fn call(
    chain: &Chain,
    sides: &[Side; 2],
    cells: &[u32],
    places: [usize; 2],
) -> (Answer, Vec<u32>, Vec<u32>) {
    let mut store = vec![7; chain.given().iter().sum::<u32>() as usize];
    let (mut first, mut second) = (vec![8; places[0]], vec![9; places[1]]);
    let outs = [&mut first[..], &mut second[..]];
    let fresh = State::default();
    let (answer, _) = run_pair(chain, sides, &fresh, &mut store, cells, outs, u32::MAX);
    (answer, first, second)
}

/// Two windows on 4 rows of 5 cells, of which each is the square of its position, and their chain.
fn cross() -> (Chain, [Side; 2], Vec<u32>) {
    let sides = [
        Side::new(&LEVEL, Kernel::Difference),
        Side::new(&UPRIGHT, Kernel::Raw),
    ];
    let cells = (0..20).map(|p| ((p * p) as f32).to_bits()).collect();
    (planned(&[4, 5], &sides).unwrap(), sides, cells)
}

/// The positions of the centres in the order of the firings.
const CENTRES: [u32; 6] = [6, 7, 8, 11, 12, 13];

/// p squared less (p - 1) squared is 2 p - 1, less (p + 1) squared it is -(2 p + 1): the sum of their squares.
const DIFFERENCES: [f32; 6] = [290.0, 394.0, 514.0, 970.0, 1154.0, 1354.0];

/// The squares of p + 5 and p - 5: below comes first in the chain.
const BELOW_AND_ABOVE: [f32; 12] = [
    121.0, 1.0, 144.0, 4.0, 169.0, 9.0, 256.0, 36.0, 289.0, 49.0, 324.0, 64.0,
];

#[test]
fn the_cross_in_two_windows() {
    let (chain, sides, cells) = cross();
    let falling: [&[i16]; 5] = [&[1, 0], &[0, 1], &[0, 0], &[0, -1], &[-1, 0]];
    let by_hand = Chain {
        order: Order::new(&[0, 1, 2, 3, 4]),
        ..Chain::new(&[4, 5], &falling, &[4, 1, 1, 4], Kernel::Raw)
    };
    assert_eq!(chain, by_hand);
    let (answer, first, second) = call(&chain, &sides, &cells, [7, 14]);
    assert_eq!(answer, done(19, 6, 19));
    assert_eq!(
        (&first[..6], &first[6..]),
        (&floats(&DIFFERENCES)[..], &[8][..])
    );
    let both = floats(&BELOW_AND_ABOVE);
    assert_eq!((&second[..12], &second[12..]), (&both[..], &[9; 2][..]));
    for (m, p) in CENTRES.into_iter().enumerate() {
        let square = |p: u32| (p * p) as f32;
        let (left, right) = (square(p) - square(p - 1), square(p) - square(p + 1));
        assert_eq!(DIFFERENCES[m], left * left + right * right);
        let both = [square(p + 5), square(p - 5)];
        assert_eq!(BELOW_AND_ABOVE[2 * m..2 * m + 2], both);
    }
}

#[test]
fn beside_nested_loops() {
    // Cells that round; the author of each window adds in an order of his own.
    let cells: Vec<u32> = (1..=600u32)
        .map(|i| ((i.wrapping_mul(2_654_435_769) >> 8) as f32 * 0.001).to_bits())
        .collect();
    let fuel: [&[i16]; 4] = [&[0, 1], &[0, 0], &[1, 0], &[0, -1]];
    let timing: [&[i16]; 3] = [&[-1, 1], &[1, -1], &[0, 0]];
    let blend = Kernel::Blend(Factors { a: 0.7, b: -0.3 });
    let sides = [
        Side::new(&fuel, blend),
        Side::new(&timing, Kernel::Scaled(0.1)),
    ];
    let chain = planned(&[20, 30], &sides).unwrap();
    let a = |i: usize, j: usize| f32::from_bits(cells[30 * i + j]);
    let (mut first, mut second) = (vec![], vec![]);
    for i in 1..19 {
        for j in 1..29 {
            let others = a(i, j + 1) + a(i + 1, j) + a(i, j - 1);
            first.push((0.7 * a(i, j) + -0.3 * others).to_bits());
            let all = a(i - 1, j + 1) + a(i + 1, j - 1) + a(i, j);
            second.push((all * 0.1).to_bits());
        }
    }
    let (answer, fuel, timing) = call(&chain, &sides, &cells, [504, 504]);
    // The last firing's newest cell is the one below it.
    assert_eq!(answer, done(30 * 19 + 29, 504, 30 * 19 + 29));
    assert!(fuel == first && timing == second);
}

#[test]
fn terms_in_each_author_s_order() {
    // 1 + 1 + 2^24 is 2^24 + 2, and 2^24 + 1 + 1 is 2^24.
    let cells = floats(&[1.0, 1.0, 16_777_216.0]);
    let rising: [&[i16]; 3] = [&[0], &[1], &[2]];
    let falling: [&[i16]; 3] = [&[2], &[1], &[0]];
    let turned: [&[i16]; 3] = [&[1], &[2], &[0]];
    let sum = Kernel::Scaled(1.0);
    let sides = [Side::new(&rising, sum), Side::new(&falling, sum)];
    let chain = planned(&[3], &sides).unwrap();
    let words = |sides: &[Side; 2], places| {
        let (answer, first, second) = call(&chain, sides, &cells, places);
        assert_eq!(answer, done(3, 1, 3));
        (first, second)
    };
    assert_eq!(
        words(&sides, [1, 1]),
        (vec![0x4B80_0001], vec![0x4B80_0000])
    );
    // Raw goes in chain order, whatever its author's.
    let sides = [Side::new(&turned, Kernel::Raw), Side::new(&rising, sum)];
    let (first, second) = words(&sides, [3, 1]);
    assert_eq!(first, floats(&[16_777_216.0, 1.0, 1.0]));
    assert_eq!(second, [0x4B80_0001]);
}

#[test]
fn the_chain_s_own_kernel_and_order_play_no_part() {
    let (chain, sides, cells) = cross();
    let wanted = call(&chain, &sides, &cells, [6, 12]);
    let nan = Factors {
        a: f32::NAN,
        b: f32::INFINITY,
    };
    for kernel in [
        Kernel::Difference,
        Kernel::Scaled(f32::NAN),
        Kernel::Blend(nan),
    ] {
        for order in [Order::none(), Order::new(&[9; 32]), Order::new(&[0; 5])] {
            let other = Chain {
                kernel,
                order,
                ..chain
            };
            assert_eq!(call(&other, &sides, &cells, [6, 12]), wanted);
        }
    }
}

#[test]
fn full_is_shared() {
    let (chain, sides, cells) = cross();
    // The first two firings are made in clocks 11 and 12; the third would be in clock 13.
    let full = Answer::Ended(Outcome::Full(counts(13, 2, 13)));
    let (differences, both) = (floats(&DIFFERENCES), floats(&BELOW_AND_ABOVE));
    let (answer, first, second) = call(&chain, &sides, &cells, [2, 12]);
    assert_eq!((answer, &first[..]), (full, &differences[..2]));
    assert_eq!((&second[..4], &second[4..]), (&both[..4], &[9; 8][..]));
    for places in [4, 5] {
        let (answer, first, second) = call(&chain, &sides, &cells, [6, places]);
        assert_eq!((answer, &first[..2]), (full, &differences[..2]));
        assert_eq!((&first[2..], &second[..4]), (&[8; 4][..], &both[..4]));
        assert_eq!(second[4..], vec![9; places - 4]);
    }
    // Clocks that do not fire need no places.
    let none = Answer::Ended(Outcome::Full(counts(11, 0, 11)));
    assert_eq!(call(&chain, &sides, &cells, [0, 12]).0, none);
    assert_eq!(call(&chain, &sides, &cells, [6, 0]).0, none);
    assert_eq!(call(&chain, &sides, &cells, [6, 1]).0, none);
}

#[test]
fn any_order_and_capacities_of_the_union() {
    // Case 7 of document 01, and the first two references of the chain exchanged.
    let (mut chain, sides, cells) = cross();
    chain.capacities[0] = 3;
    let stalled = |cells, clocks| Answer::Ended(Outcome::Stalled(counts(cells, 0, clocks)));
    let (answer, first, second) = call(&chain, &sides, &cells, [6, 12]);
    assert_eq!(
        (answer, first, second),
        (stalled(10, 10), vec![8; 6], vec![9; 12])
    );
    chain.capacities[0] = 4;
    for d in 0..2 {
        chain.window.offsets.swap(d, 4 + d);
    }
    assert_eq!(judge_pair(&chain, &sides), Ok(()));
    // Filter 0 passes cells 0 to 6 and keeps 7, which is to the right of the first centre. In one more clock 6 passes filter 1,
    // which then waits for 11.
    assert_eq!(call(&chain, &sides, &cells, [6, 12]).0, stalled(7, 8));
}

#[test]
fn on_rows_and_in_a_box() {
    // Each row a column further: iterations are columns 2 to 4 of row 1 and 3 to 5 of row 2.
    let grid = Grid::rows(&[(0, 5), (1, 5), (2, 5), (3, 5)]);
    let sides = [
        Side::new(&LEVEL, Kernel::Raw),
        Side::new(&UPRIGHT, Kernel::Raw),
    ];
    let cells: Vec<u32> = (0..20).collect();
    let chain = plan_pair(&grid, &Bounds::none(), &sides).unwrap();
    assert_eq!(chain.given(), [3, 1, 1, 3]);
    // Right, centre, left; below, above.
    let first = [6, 7, 8, 11, 12, 13].map(|p| [p + 1, p, p - 1]).concat();
    let second = [6, 7, 8, 11, 12, 13].map(|p| [p + 4, p - 4]).concat();
    assert_eq!(
        call(&chain, &sides, &cells, [18, 12]),
        (done(18, 6, 18), first.clone(), second.clone())
    );
    // Columns 3 and 4 of both rows: all firings but the first and the last.
    let bounds = Bounds::new(&[[1, 2], [3, 4]]);
    let chain = plan_pair(&grid, &bounds, &sides).unwrap();
    assert_eq!(
        call(&chain, &sides, &cells, [12, 8]),
        (
            done(17, 4, 17),
            first[3..15].to_vec(),
            second[2..10].to_vec()
        )
    );
}

#[test]
fn numbers_in_their_order() {
    // Everything is wrong at first, and put right one by one.
    let refs = |offsets: &[i16]| {
        let offsets: Vec<[i16; 1]> = offsets.iter().map(|&offset| [offset]).collect();
        let offsets: Vec<&[i16]> = offsets.iter().map(|offset| &offset[..]).collect();
        Window::new(&offsets)
    };
    let mut chain = Chain::new(&[], &[], &[16_385, 1], Kernel::Scaled(f32::NAN));
    chain.bounds = Bounds::new(&[[1, 0]]);
    chain.order = Order::new(&[9; 3]);
    let mut sides = [
        Side::new(&[], Kernel::Scaled(f32::INFINITY)),
        Side::new(&[], Kernel::Difference),
    ];
    let mut state = State::default();
    state.fired = 9;
    let mut store = vec![0; 1];
    let mut number = |chain: &Chain, sides: &[Side; 2], state: &State| {
        let cells = floats(&[1.0; 6]);
        let outs = [&mut [0; 4][..], &mut [0; 4][..]];
        let (answer, after) = run_pair(chain, sides, state, &mut store, &cells, outs, 99);
        if answer.number() == 10 {
            store = vec![0; 2];
        }
        assert!(answer.number() == 0 || after == *state);
        answer.number()
    };
    assert_eq!(number(&chain, &sides, &state), 3);
    chain.grid = Grid::rows(&[]);
    assert_eq!(number(&chain, &sides, &state), 16);
    chain.grid = Grid::new(&[2]);
    // 4 of the chain, of the first window, of the second and of the union.
    assert_eq!(number(&chain, &sides, &state), 4);
    chain.window = refs(&[2, 2, 0]);
    assert_eq!(number(&chain, &sides, &state), 4);
    sides[0].window = refs(&[0, 0]);
    assert_eq!(number(&chain, &sides, &state), 4);
    let all: Vec<i16> = (1..33).collect();
    sides[1].window = refs(&all);
    assert_eq!(number(&chain, &sides, &state), 4);
    sides[1].window = refs(&[2, 1, 2]);
    // 5 of the chain, of the first window and of the second.
    assert_eq!(number(&chain, &sides, &state), 5);
    chain.window = refs(&[2, 3, 0]);
    assert_eq!(number(&chain, &sides, &state), 5);
    sides[0].window = refs(&[0, 2]);
    assert_eq!(number(&chain, &sides, &state), 5);
    sides[1].window = refs(&[2, 1]);
    assert_eq!(number(&chain, &sides, &state), 6);
    chain.grid = Grid::new(&[6]);
    assert_eq!(number(&chain, &sides, &state), 15);
    chain.bounds.stood = false;
    // 7 of the second window before 8 of the first.
    assert_eq!(number(&chain, &sides, &state), 7);
    sides[1].window = refs(&[0, 1]);
    assert_eq!(number(&chain, &sides, &state), 8);
    sides[0].kernel = Kernel::Raw;
    assert_eq!(number(&chain, &sides, &state), 9);
    chain.capacities[0] = 1;
    assert_eq!(number(&chain, &sides, &state), 14);
    chain.window = refs(&[2, 1, 0]);
    assert_eq!(number(&chain, &sides, &state), 10);
    assert_eq!(number(&chain, &sides, &state), 11);
    state.fired = 0;
    assert_eq!(number(&chain, &sides, &state), 0);
}

#[test]
fn numbers_of_planning() {
    let one = |offset: i16, kernel| Side::new(&[&[offset]], kernel);
    let raw = |offset: i16| one(offset, Kernel::Raw);
    let number = |size: u32, first: Side, second: Side| planned(&[size], &[first, second]).err();
    assert_eq!(number(0, raw(0), raw(0)), Some(3));
    assert_eq!(number(5, raw(0), Side::new(&[], Kernel::Raw)), Some(4));
    let many = |from: i16, to: i16| {
        let offsets: Vec<[i16; 1]> = (from..to).map(|offset| [offset]).collect();
        let offsets: Vec<&[i16]> = offsets.iter().map(|offset| &offset[..]).collect();
        Side::new(&offsets, Kernel::Raw)
    };
    // 32 together, 33 together, and the same 32 twice.
    assert_eq!(number(50, many(0, 20), many(10, 32)), None);
    assert_eq!(number(50, many(0, 20), many(10, 33)), Some(4));
    assert_eq!(number(50, many(0, 32), many(0, 32)), None);
    let twins = Side::new(&[&[1], &[1]], Kernel::Raw);
    assert_eq!(number(5, raw(0), twins), Some(5));
    assert_eq!(number(2, raw(-1), raw(1)), Some(6));
    assert_eq!(number(3, raw(-1), raw(1)), None);
    assert_eq!(number(5, raw(0), one(1, Kernel::Difference)), Some(7));
    assert_eq!(
        number(
            5,
            one(1, Kernel::Difference),
            one(0, Kernel::Scaled(f32::NAN))
        ),
        Some(7)
    );
    assert_eq!(number(5, raw(1), one(0, Kernel::Scaled(f32::NAN))), Some(8));
    assert_eq!(number(20_000, raw(0), raw(16_384)), None);
    assert_eq!(number(20_000, raw(0), raw(16_385)), Some(9));
    // The union's iterations are 1 to 3.
    let boxed = |lowest, highest| {
        let bounds = Bounds::new(&[[lowest, highest]]);
        let planned = plan_pair(&Grid::new(&[5]), &bounds, &[raw(-1), raw(1)]);
        assert!(planned.is_err() || planned.unwrap().bounds == bounds);
        planned.map_or_else(|refusal| refusal.number(), |_| 0)
    };
    assert_eq!(
        [boxed(1, 3), boxed(0, 3), boxed(1, 4), boxed(3, 1)],
        [0, 15, 15, 15]
    );
}
