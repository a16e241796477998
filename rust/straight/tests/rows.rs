//! Skewed grids (document 02, request 5): rows that each have their own first column and length.

mod dice;

use dice::Dice;
use std::collections::HashMap;
use straight::sheet::chain_text;
use straight::*;

/// A cell and the one above it, falling.
const PAIR: [&[i16]; 2] = [&[0, 0], &[-1, 0]];
const CROSS: [&[i16]; 5] = [&[0, 0], &[-1, 0], &[1, 0], &[0, -1], &[0, 1]];
/// The second firing is late: its newest cell is 3, and it is made in clock 4.
const LATE: [(u16, u16); 3] = [(2, 2), (2, 1), (2, 1)];
/// The distance grows from 1 to 2.
const GROWING: [(u16, u16); 3] = [(1, 1), (1, 1), (0, 2)];

fn request(rows: &[(u16, u16)], offsets: &[&[i16]]) -> Request {
    Request {
        grid: Grid::rows(rows),
        ..Request::new(&[], offsets, Kernel::Raw)
    }
}

fn planned(rows: &[(u16, u16)], offsets: &[&[i16]]) -> Chain {
    plan(&request(rows, offsets)).unwrap()
}

/// What a whole run does.
#[derive(Debug, PartialEq)]
struct Run {
    firing_clocks: Vec<u32>,
    out: Vec<u32>,
    clocks: u32,
    cells: u32,
    done: bool,
}

/// A fresh run, one clock a call, up to Done or Stalled. Each cell is its position.
fn whole(chain: &Chain) -> Run {
    let cells: Vec<u32> = (0..chain.grid.cells() as u32).collect();
    let n = chain.window.count as usize;
    let mut store = vec![7; chain.given().iter().sum::<u32>() as usize];
    let mut state = State::default();
    let (mut firing_clocks, mut all) = (vec![], vec![]);
    for clocks in 0.. {
        let mut out = vec![0; n];
        let rest = &cells[state.passed[0] as usize..];
        let (answer, next) = run(chain, &state, &mut store, rest, &mut out, 1);
        let counts = answer.counts();
        if counts.firings == 1 {
            firing_clocks.push(clocks);
            all.extend(out);
        }
        if counts.clocks == 0 {
            let done = match answer {
                Answer::Ended(Outcome::Done(_)) => true,
                Answer::Ended(Outcome::Stalled(_)) => false,
                other => panic!("{other:?}"),
            };
            return Run {
                firing_clocks,
                out: all,
                clocks,
                cells: state.passed[0],
                done,
            };
        }
        state = next;
    }
    unreachable!()
}

/// A fresh run of calls that lend at most as many cells, places and clocks as `lend` says, up to Done or Stalled: words, clocks, end state and store, whether Done.
fn split(
    chain: &Chain,
    mut lend: impl FnMut() -> [usize; 3],
) -> (Vec<u32>, u32, State, Vec<u32>, bool) {
    let cells: Vec<u32> = (0..chain.grid.cells() as u32).collect();
    let n = chain.window.count as usize;
    let mut store = vec![7; chain.given().iter().sum::<u32>() as usize];
    let mut state = State::default();
    let (mut words, mut clocks) = (vec![], 0);
    loop {
        let [many, places, allowance] = lend();
        let rest = &cells[state.passed[0] as usize..];
        let lent = &rest[..many.min(rest.len())];
        let mut out = vec![5; places.min(n * cells.len())];
        let (answer, next) = run(chain, &state, &mut store, lent, &mut out, allowance as u32);
        let counts = answer.counts();
        let written = counts.firings as usize * n;
        assert!(out[written..].iter().all(|&word| word == 5));
        words.extend(&out[..written]);
        clocks += counts.clocks;
        state = next;
        match answer {
            Answer::Ended(Outcome::Done(_)) => return (words, clocks, state, store, true),
            Answer::Ended(Outcome::Stalled(_)) => return (words, clocks, state, store, false),
            Answer::Ended(_) => {}
            Answer::Refused(refusal) => panic!("{refusal:?}"),
        }
    }
}

fn ended(chain: &Chain) -> (Vec<u32>, u32, bool) {
    let run = whole(chain);
    (run.firing_clocks, run.clocks, run.done)
}

#[test]
fn a_planned_chain_fires_late() {
    let chain = planned(&LATE, &PAIR);
    assert_eq!(chain.given(), [2]);
    assert_eq!(ended(&chain), (vec![2, 4], 5, true));
    assert_eq!(whole(&chain).out, [2, 0, 3, 2]);
    assert_eq!(whole(&chain).cells, 4);
}

#[test]
fn one_place_short() {
    let mut chain = planned(&GROWING, &PAIR);
    assert_eq!(chain.given(), [2]);
    assert!(whole(&chain).done);
    chain.capacities[0] = 1;
    assert_eq!(ended(&chain), (vec![1], 2, false));
    assert_eq!(whole(&chain).out, [1, 0]);
}

#[test]
fn wrong_order() {
    for rows in [LATE, GROWING] {
        for capacity in [1, 2, 16] {
            let mut chain = planned(&rows, &PAIR);
            chain.window = Window::new(&[PAIR[1], PAIR[0]]);
            chain.capacities[0] = capacity;
            let run = whole(&chain);
            assert_eq!((run.firing_clocks, run.done), (vec![], false));
        }
    }
}

#[test]
fn rows_without_iterations() {
    // At either end and between: a row of one cell has none.
    let pair: [&[i16]; 2] = [&[0, 1], &[0, 0]];
    let rows = [(0, 1), (5, 3), (9, 1), (9, 1), (0, 2), (0, 1)];
    let chain = planned(&rows, &pair);
    assert_eq!(chain.given(), [1]);
    let run = whole(&chain);
    assert_eq!(run.out, [2, 1, 3, 2, 7, 6]);
    assert_eq!((run.done, run.cells), (true, 8));
    // Their distances do not count: here cells (1, 0) and (0, 0) are read in column 7 alone.
    let rows = [(7, 1), (7, 1), (0, 1000), (0, 1)];
    assert_eq!(planned(&rows, &[&[1, 0], &[0, 0]]).given(), [1000]);
    let rows = [(7, 1), (7, 1), (8, 1000), (0, 1)];
    assert_eq!(planned(&rows, &[&[1, 0], &[0, 0]]).given(), [1]);
    let none = request(&[(0, 3), (3, 3), (0, 3)], &[&[1, 0], &[0, 0]]);
    assert_eq!(plan(&none), Err(Refusal::NoIteration));
}

#[test]
fn equal_rows_run_as_a_rectangle() {
    for start in [0, 1, 4095] {
        let chain = planned(&[(start, 5); 4], &CROSS);
        let same = plan(&Request::new(&[4, 5], &CROSS, Kernel::Raw)).unwrap();
        assert_eq!(chain.given(), [4, 1, 1, 4]);
        assert_eq!(whole(&chain), whole(&same));
        assert!(!chain.same(&same));
    }
}

#[test]
fn capacities_go_by_the_box() {
    // Distances 1, 2 and 3 in rows 1, 2 and 3.
    let mut request = request(&[(3, 1), (3, 1), (2, 2), (1, 3)], &PAIR);
    let mut with = |ends: &[[i32; 2]]| {
        request.bounds = Bounds::new(ends);
        plan(&request).map_err(|r| r.number())
    };
    for (ends, capacity, clocks) in [
        ([[1, 1], [3, 3]], 1, vec![1]),
        ([[2, 2], [3, 3]], 2, vec![3]),
        ([[1, 2], [3, 3]], 2, vec![1, 3]),
        ([[3, 3], [2, 3]], 3, vec![5, 6]),
        ([[1, 3], [3, 3]], 3, vec![1, 3, 6]),
    ] {
        let chain = with(&ends).unwrap();
        assert_eq!(chain.given(), [capacity]);
        assert_eq!(whole(&chain).firing_clocks, clocks);
    }
    // A row or a column further; crossed; far away.
    const MIN: i32 = i32::MIN;
    const MAX: i32 = i32::MAX;
    for ends in [
        [[0, 1], [3, 3]],
        [[1, 4], [3, 3]],
        [[2, 2], [2, 3]],
        [[3, 3], [1, 3]],
        [[3, 3], [2, 4]],
        [[2, 3], [2, 3]],
        [[2, 1], [3, 3]],
        [[1, 3], [3, 2]],
        [[MIN, MAX], [MIN, MAX]],
        [[1, MAX], [3, 3]],
        [[MIN, 3], [3, 3]],
        [[3, 3], [MIN, 3]],
        [[3, 3], [3, MAX]],
        [[MAX, MAX], [3, 3]],
        [[MAX, MIN], [MAX, MIN]],
    ] {
        assert_eq!(with(&ends), Err(15), "{ends:?}");
    }
}

#[test]
fn the_sum_of_the_largest() {
    // The distances are 3 and 1 in row 1, 1 and 3 in row 2: 4 between the first and the last reference.
    let column: [&[i16]; 3] = [&[1, 0], &[0, 0], &[-1, 0]];
    let chain = planned(&[(3, 1), (3, 1), (1, 3), (3, 1)], &column);
    let steps = steps(&chain.grid, &chain.window, &chain.bounds).unwrap();
    assert_eq!((steps.distances, steps.total), (vec![3, 3], 6));
    // The same with 8 long rows in the middle: 9 is of the sum, though no iteration needs more than 8,202.
    let long = |length: u16| {
        let mut rows = [(1023, 1); 28];
        rows[10..18].fill((1024 - length, length));
        let column: [&[i16]; 3] = [&[9, 0], &[0, 0], &[-9, 0]];
        plan(&request(&rows, &column)).map(|chain| chain.given().to_vec())
    };
    assert_eq!(long(1023), Ok(vec![8185, 8185]));
    assert_eq!(long(1024), Err(Refusal::TooLarge));
}

fn number(chain: &Chain) -> u8 {
    judge_chain(chain).map_or_else(|r| r.number(), |_| 0)
}

#[test]
fn judging() {
    let one = Chain {
        grid: Grid::rows(&[(4095, 1024), (0, 1)]),
        ..Chain::new(&[], &[&[0, 0]], &[], Kernel::Raw)
    };
    let with = |count: u16, at: usize, start: u16, length: u16| {
        let mut rows = [Row {
            start: 0,
            length: 1,
        }; 512];
        rows[at] = Row { start, length };
        let grid = Grid::Rows(Rows { count, rows });
        Chain { grid, ..one }
    };
    assert_eq!(number(&one), 0);
    for (count, at, start, length) in [
        (0, 0, 0, 1),
        (513, 0, 0, 1),
        (u16::MAX, 0, 0, 1),
        (1, 0, 4096, 1),
        (1, 0, u16::MAX, 1),
        (1, 0, 0, 0),
        (1, 0, 0, 1025),
        (1, 0, 0, u16::MAX),
        (512, 511, 4096, 1),
        (512, 511, 0, 0),
    ] {
        // 16 stands where 3 does: before the count of references.
        let mut chain = with(count, at, start, length);
        assert_eq!(number(&chain), 16);
        chain.window.count = 99;
        assert_eq!(number(&chain), 16);
        let (answer, _) = run(&chain, &State::default(), &mut [], &[], &mut [], 0);
        assert_eq!(answer.number(), 16);
        assert_eq!(write_chain(&chain, &mut []), Err(Refusal::BadRows));
    }
    assert_eq!(number(&with(512, 511, 4095, 1024)), 0);
    assert_eq!(number(&with(1, 0, 4095, 1024)), 0);
    // 512 rows of 1,024 cells are not too many.
    let most = Chain {
        grid: Grid::rows(&[(0, 1024); 512]),
        ..one
    };
    assert_eq!((number(&most), most.grid.cells()), (0, 524_288));
    // Past the count nothing plays a part.
    let past = with(511, 511, u16::MAX, 0);
    assert_eq!(number(&past), 0);
    assert!(past.same(&with(511, 511, 0, 1)));
    assert!(past.same(&Chain {
        grid: Grid::rows(&[(0, 1); 511]),
        ..one
    }));
    assert!(!past.same(&with(512, 511, 0, 1)));
    assert!(!past.same(&with(511, 510, 0, 2)));
    assert!(!past.same(&with(511, 510, 1, 1)));

    let pair = |rows: &[(u16, u16)], offsets: &[&[i16]], kernel: Kernel| {
        let mut chain = Chain::new(&[], offsets, &[16_384], kernel);
        chain.grid = Grid::rows(rows);
        number(&chain)
    };
    assert_eq!(pair(&LATE, &PAIR, Kernel::Difference), 0);
    assert_eq!(pair(&LATE, &[&[0, 0], &[0, 0]], Kernel::Raw), 5);
    assert_eq!(pair(&LATE, &[&[0, 0], &[3, 0]], Kernel::Raw), 6);
    assert_eq!(pair(&LATE, &[&[0, 0], &[0, 2]], Kernel::Raw), 6);
    assert_eq!(pair(&LATE, &[&[0, 1], &[0, 2]], Kernel::Difference), 7);
    assert_eq!(pair(&LATE, &PAIR, Kernel::Scaled(f32::NAN)), 8);
}

#[test]
fn lines() {
    let request = |text: &str| read_request(text.as_bytes()).map_or_else(|r| r.number(), |_| 0);
    let chain = |text: &str| read_chain(text.as_bytes()).map_or_else(|r| r.number(), |_| 0);
    const ROWS: &str = "0900020000000500010005\n";
    let long = |count: usize| format!("09{count:04X}{}\n", "00000400".repeat(count));
    // The same to a request sheet and to a chain sheet.
    for (text, number) in [
        ("09\n", 1),
        ("0900\n", 1),
        ("09000\n", 1),
        ("090000\n", 16),
        ("0900000000\n", 16),
        ("090201\n", 16),
        ("09FFFF00\n", 16),
        ("090001\n", 1),
        ("0900010000000\n", 1),
        ("09000100000001\n", 2),
        ("0900010000000100\n", 1),
        ("0900020000000100000001\n", 2),
        ("09000200000001\n", 1),
        ("0900020000000100001\n", 1),
        ("09000100000000\n", 16),
        ("09000100000401\n", 16),
        ("09000110000001\n", 16),
        ("0900010FFF0400\n", 2),
        ("09000200000001000F0000\n", 16),
        ("0900010000000g\n", 1),
        ("09000100000001", 1),
        ("{ROWS}{ROWS}", 2),
        ("{ROWS}09\n", 1),
        ("{ROWS}0900\n", 1),
        ("{ROWS}090000\n", 2),
        ("{ROWS}01\n", 1),
        ("{ROWS}0100\n", 2),
        ("010100000005\n{ROWS}", 2),
        ("0100\n{ROWS}", 3),
        ("{ROWS}0400\n", 2),
        ("{ROWS}020000\n", 1),
        ("{ROWS}02000000000000\n", 1),
        ("{ROWS}0200000000\n0400\n", 0),
        ("{ROWS}0200000000\n{ROWS}", 2),
        ("{ROWS}0200000000\n0400\n{ROWS}", 2),
        ("{ROWS}0200000000\n0400\n09\n", 1),
        ("{ROWS}0200020000\n0401\n", 7),
        ("{ROWS}0200000000\n080000000000000000\n", 1),
        (
            "{ROWS}0200000000\n0800000000000000010000000100000004\n0400\n",
            0,
        ),
        (
            "{ROWS}0200000000\n0800000000000000010000000000000004\n0400\n",
            15,
        ),
    ] {
        let text = text.replace("{ROWS}", ROWS);
        assert_eq!((request(&text), chain(&text)), (number, number), "{text}");
    }
    for (count, number) in [(1, 0), (511, 0), (512, 0), (513, 16), (16_383, 16)] {
        let text = format!("{}0200000000\n0400\n", long(count));
        assert_eq!((request(&text), chain(&text)), (number, number), "{count}");
    }
    for (rest, number) in [
        ("0701\n0400\n", 0),
        ("0702\n0401\n", 7),
        ("0703\n0400\n", 0),
        ("0704\n", 13),
        ("0705\n", 13),
    ] {
        let rows = "090003000000050001000500000005";
        assert_eq!(request(&format!("{rows}\n{rest}")), number, "{rest}");
    }

    let text = "090003000200020002000100020001\n0200000000\n02FFFF0000\n0400\n";
    let read = read_request(text.as_bytes()).unwrap();
    assert_eq!(read.grid, Grid::rows(&LATE));
    let chain = plan(&read).unwrap();
    let text = text.replace("0400", "0300000002\n060001\n0400");
    assert_eq!(chain_text(&chain), text.as_bytes());
    assert!(read_chain(text.as_bytes()).unwrap().same(&chain));
}

#[test]
fn states_at_row_ends() {
    // Iterations in rows 1 and 3, two each.
    let chain = planned(&[(0, 2), (0, 2), (4, 2), (4, 2), (7, 1)], &PAIR);
    assert_eq!(whole(&chain).out, [2, 0, 3, 1, 6, 4, 7, 5]);
    let answer = |a: u32, b: u32, fired: u32| {
        let mut state = State {
            fired,
            ..State::default()
        };
        (state.passed[0], state.passed[1]) = (a, b);
        let (answer, after) = run(&chain, &state, &mut [0; 2], &[1, 2], &mut [], 0);
        assert_eq!(after, state);
        answer.number()
    };
    // After the last firing of row 1 the next wanted cells are 6 and 4, the last fired ones 3 and 1.
    assert_eq!(answer(4, 2, 2), 0);
    assert_eq!(answer(4, 4, 2), 0);
    assert_eq!(answer(6, 4, 2), 0);
    assert_eq!(answer(3, 2, 2), 11);
    assert_eq!(answer(4, 1, 2), 11);
    assert_eq!(answer(7, 5, 2), 11);
    assert_eq!(answer(7, 4, 2), 11);
    assert_eq!(answer(6, 3, 2), 11);
    assert_eq!(answer(5, 5, 2), 11);
    // After the last of all.
    assert_eq!(answer(8, 6, 4), 0);
    assert_eq!(answer(9, 9, 4), 0);
    assert_eq!(answer(10, 9, 4), 11);
    assert_eq!(answer(7, 6, 4), 11);
    assert_eq!(answer(8, 6, 5), 11);
}

/// The iterations by their definition, each with what the references read.
fn iterations(rows: &[(u16, u16)], offsets: &[&[i16]]) -> Vec<([i32; 2], Vec<u32>)> {
    let mut positions = HashMap::new();
    for (row, &(start, length)) in rows.iter().enumerate() {
        for column in start..start + length {
            positions.insert([row as i32, column as i32], positions.len() as u32);
        }
    }
    let mut found = vec![];
    for row in -20..20 {
        for column in -20..40 {
            let read = |o: &&[i16]| {
                let cell = [row + o[0] as i32, column + o[1] as i32];
                positions.get(&cell).copied()
            };
            if let Some(reads) = offsets.iter().map(read).collect::<Option<Vec<u32>>>() {
                found.push(([row, column], reads));
            }
        }
    }
    found
}

/// The box of two of the vectors, at times a step wider.
fn some_box(all: &[([i32; 2], Vec<u32>)], dice: &mut Dice) -> Bounds {
    let mut some = || all[dice.roll(all.len() as u64) as usize].0;
    let (a, b) = (some(), some());
    let mut ends = [0, 1].map(|d| [a[d].min(b[d]), a[d].max(b[d])]);
    match dice.roll(12) {
        0 => ends[0][0] -= 1,
        1 => ends[0][1] += 1,
        2 => ends[1][0] -= 1,
        3 => ends[1][1] += 1,
        4 => ends.swap(0, 1),
        5 => ends[0].swap(0, 1),
        6..=8 => ends[0] = [a[0]; 2],
        _ => {}
    }
    Bounds::new(&ends)
}

#[test]
fn random_rows() {
    let mut dice = Dice(0x5EED_0509);
    let (mut none, mut misfits, mut boxed, mut gaps, mut late, mut larger) = (0, 0, 0, 0, 0, 0);
    let (mut short, mut between) = (0, 0);
    for _ in 0..30_000 {
        let count = 1 + dice.roll(7);
        let flat = dice.roll(4) == 0;
        let rows: Vec<(u16, u16)> = (0..count)
            .map(|_| match flat {
                true => (2, 1 + dice.roll(5) as u16),
                false => (dice.roll(5) as u16, 1 + dice.roll(7) as u16),
            })
            .collect();
        let mut offsets: Vec<[i16; 2]> = vec![];
        for _ in 0..1 + dice.roll(5) {
            let offset = [dice.roll(4) as i16 - 2, dice.roll(5) as i16 - 2];
            if !offsets.contains(&offset) {
                offsets.push(offset);
            }
        }
        let offsets: Vec<&[i16]> = offsets.iter().map(|o| &o[..]).collect();
        let mut request = request(&rows, &offsets);
        let all = iterations(&rows, &offsets);
        if all.is_empty() {
            none += 1;
            assert_eq!(plan(&request), Err(Refusal::NoIteration));
            continue;
        }
        gaps += all.windows(2).any(|pair| pair[1].0[0] > pair[0].0[0] + 1) as u32;

        // Those of the box, in chain order.
        let mut due: Vec<([i32; 2], Vec<u32>)> = all.clone();
        if dice.roll(2) == 0 {
            request.bounds = some_box(&all, &mut dice);
            let Bounds {
                lowest, highest, ..
            } = request.bounds;
            let within = |v: &[i32; 2]| (0..2).all(|d| lowest[d] <= v[d] && v[d] <= highest[d]);
            due.retain(|(vector, _)| within(vector));
            let side = |d: usize| (highest[d] - lowest[d] + 1).max(0) as usize;
            if due.is_empty() || due.len() != side(0) * side(1) {
                misfits += 1;
                assert_eq!(plan(&request), Err(Refusal::BadBox));
                continue;
            }
            boxed += 1;
        }
        let chain = plan(&request).unwrap();
        let n = offsets.len();
        let mut falling = offsets.clone();
        falling.sort_by(|a, b| b.cmp(a));
        assert_eq!(chain.window, Window::new(&falling));
        let term = |t: usize| chain.order.filters[t] as usize;
        assert!((0..n).all(|t| falling[term(t)] == offsets[t]));
        // In chain order what each reads falls.
        for (_, reads) in &mut due {
            reads.sort_by(|a, b| b.cmp(a));
        }
        let apart = |k: usize| due.iter().map(move |(_, reads)| reads[k] - reads[k + 1]);
        let largest: Vec<u32> = (0..n - 1).map(|k| apart(k).max().unwrap()).collect();
        assert_eq!(chain.given(), largest);
        let most = due.iter().map(|(_, reads)| reads[0] - reads[n - 1]).max();
        larger += (largest.iter().sum::<u32>() > most.unwrap()) as u32;

        let words: Vec<u32> = due.iter().flat_map(|(_, reads)| reads.clone()).collect();
        let cells: Vec<u32> = (0..chain.grid.cells() as u32).collect();
        assert_eq!(nested_words(&chain, &cells), words);
        let run = whole(&chain);
        assert!(run.done);
        assert_eq!(run.out, words);
        let newest = due.iter().map(|(_, reads)| reads[0]);
        assert!(newest.clone().zip(&run.firing_clocks).all(|(p, &c)| p <= c));
        late += newest.zip(&run.firing_clocks).any(|(p, &c)| p < c) as u32;
        assert!(run.clocks as usize <= n * cells.len());
        assert!(read_chain(&chain_text(&chain)).unwrap().same(&chain));

        // Other capacities: every firing before the first that needs more, in the same clocks, then a stall.
        let mut other = chain;
        for k in 0..n - 1 {
            let less = dice.roll(4) == 0;
            other.capacities[k] = (largest[k] + dice.roll(2) as u32 * dice.roll(4) as u32)
                .saturating_sub(less as u32 * (1 + dice.roll(2) as u32));
        }
        let needs_more = |(_, reads): &([i32; 2], Vec<u32>)| {
            (0..n - 1).any(|k| reads[k] - reads[k + 1] > other.capacities[k])
        };
        let blocked = due.iter().position(needs_more);
        let ran = whole(&other);
        assert_eq!(ran.done, blocked.is_none());
        let firings = blocked.unwrap_or(due.len());
        short += blocked.is_some() as u32;
        between += (blocked.is_some() && firings > 0) as u32;
        assert_eq!(ran.firing_clocks, run.firing_clocks[..firings]);
        assert_eq!(ran.out, words[..firings * n]);

        // However the run is split.
        let once = split(&other, || [usize::MAX; 3]);
        assert_eq!((&once.0, once.1, once.4), (&ran.out, ran.clocks, ran.done));
        let pieces = split(&other, || [6, 20, 6].map(|most| dice.roll(most) as usize));
        assert_eq!(pieces, once);

        // Another order: no firing.
        if n > 1 {
            let k = dice.roll(n as u64 - 1) as usize;
            let mut swapped = chain;
            for d in 0..4 {
                swapped.window.offsets.swap(4 * k + d, 4 * k + 4 + d);
            }
            let ran = whole(&swapped);
            assert!(!ran.done && ran.firing_clocks.is_empty());
        }
    }
    let met = [none, misfits, boxed, gaps, late, larger, short, between];
    assert!(met.iter().all(|&count| count > 200), "{met:?}");
}
