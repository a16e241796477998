//! The chains and pairs of windows that are timed, by name. Terms go in chain order where nothing else is said.
use crate::dice::Dice;
use straight::{plan, Chain, Factors, Grid, Kernel, Request, Side};

/// Cells whose differences have squares that are rounded, so that the order of the terms shows.
pub fn cells(grid: &Grid) -> Vec<u32> {
    (0..grid.cells() as u32)
        .map(|i| ((i % 1000) as f32 * 0.37).to_bits())
        .collect()
}

/// Offsets whose entries are -1, 0 and 1, falling.
fn neighbours(dims: u32, keep: impl Fn(&[i16]) -> bool) -> Vec<Vec<i16>> {
    (0..3usize.pow(dims))
        .rev()
        .map(|number| {
            (0..dims)
                .rev()
                .map(|d| (number / 3usize.pow(d) % 3) as i16 - 1)
                .collect::<Vec<i16>>()
        })
        .filter(|offset| keep(offset))
        .collect()
}

fn steps(offset: &[i16]) -> i16 {
    offset.iter().map(|entry| entry.abs()).sum()
}

fn planned(sizes: &[u32], offsets: &[Vec<i16>], kernel: Kernel) -> Chain {
    let offsets: Vec<&[i16]> = offsets.iter().map(|offset| &offset[..]).collect();
    plan(&Request::new(sizes, &offsets, kernel)).expect("the window is accepted")
}

/// Grid and offsets of cases 1, 3, 4 and 5 of document 01.
fn window(number: u8) -> (&'static [u32], Vec<Vec<i16>>) {
    match number {
        1 => (&[768, 1024], neighbours(2, |o| steps(o) <= 1)),
        3 => (&[768, 1024], neighbours(2, |_| true)),
        4 => (&[40, 32, 32], neighbours(3, |o| steps(o) <= 1)),
        5 => (&[40, 32, 32], neighbours(3, |o| steps(o) <= 2)),
        _ => unreachable!(),
    }
}

fn case(number: u8, kernel: Kernel) -> Chain {
    let (sizes, offsets) = window(number);
    planned(sizes, &offsets, kernel)
}

/// Case 1 with its references as Listing 1 of document 003 names them: centre, left, right, up, down.
fn listing_1(kernel: Kernel) -> Chain {
    let offsets = [[0, 0], [0, -1], [0, 1], [-1, 0], [1, 0]].map(|offset| offset.to_vec());
    planned(window(1).0, &offsets, kernel)
}

fn rising(number: u8, kernel: Kernel) -> Chain {
    let (sizes, mut offsets) = window(number);
    offsets.reverse();
    planned(sizes, &offsets, kernel)
}

/// `count` neighbours in a row of 100,000 cells, `apart` cells between two.
pub fn row(count: i16, apart: i16, kernel: Kernel) -> Chain {
    let offsets: Vec<Vec<i16>> = (0..count).rev().map(|k| vec![k * apart]).collect();
    planned(&[100_000], &offsets, kernel)
}

const KERNELS: [(&str, Kernel); 2] = [("raw", Kernel::Raw), ("difference", Kernel::Difference)];

pub fn planned_chains() -> Vec<(String, Chain)> {
    let mut chains = Vec::new();
    for number in [1, 3, 4, 5] {
        for (name, kernel) in KERNELS {
            chains.push((format!("case {number} {name}"), case(number, kernel)));
        }
    }
    let ordered = [
        (
            "case 1 difference, as Listing 1 adds",
            listing_1(Kernel::Difference),
        ),
        (
            "case 5 difference, terms rising",
            rising(5, Kernel::Difference),
        ),
    ];
    chains.extend(ordered.map(|(name, chain)| (name.to_string(), chain)));
    chains
}

/// Start and length of 200 rows of 100, a column further each.
fn slanted() -> Vec<(u16, u16)> {
    (0..200).map(|row| (row, 100)).collect()
}

/// The five-point cross on rows: slanted, jagged, and equal ones.
pub fn skewed_chains() -> Vec<(String, Chain)> {
    let mut dice = Dice::new(1);
    let mut any = |low: i64, high: i64| dice.between(low, high) as u16;
    let jagged: Vec<(u16, u16)> = (0..512).map(|_| (any(0, 200), any(200, 1024))).collect();
    let equal = vec![(0, 100); 200];
    let maps = [
        ("200 rows of 100, a column further each", slanted()),
        ("512 rows of random starts and lengths", jagged),
        ("200 rows of 100, equal", equal),
    ];
    let mut chains = Vec::new();
    for (map, rows) in maps {
        for (name, kernel) in KERNELS {
            let (_, offsets) = window(1);
            let offsets: Vec<&[i16]> = offsets.iter().map(|offset| &offset[..]).collect();
            let request = Request {
                grid: Grid::rows(&rows),
                ..Request::new(&[], &offsets, kernel)
            };
            let chain = plan(&request).expect("the window is accepted");
            chains.push((format!("{map}, {name}"), chain));
        }
    }
    chains
}

/// Accepted chains that are not planned so, and a planned one that fills for long.
pub fn other_chains() -> Vec<(String, Chain)> {
    let mut chains = Vec::new();
    for (name, kernel) in KERNELS {
        let mut doubled = case(5, kernel);
        doubled.capacities.iter_mut().for_each(|c| *c *= 2);
        chains.push((format!("case 5 {name}, capacities doubled"), doubled));
        let name = format!("32 references 500 apart, {name}");
        chains.push((name, row(32, 500, kernel)));
    }
    let short = |mut chain: Chain| {
        chain.capacities[0] -= 1;
        chain
    };
    let long = row(32, 500, Kernel::Raw);
    let mut swapped = long;
    swapped.window.offsets.swap(4 * 30, 4 * 31);
    let named = [
        ("32 references 500 apart, FIFO 0 one short", short(long)),
        ("32 references 500 apart, last two swapped", swapped),
        ("case 1, FIFO 0 one short", short(case(1, Kernel::Raw))),
        (
            "2 references 16,000 apart, capacity one short",
            short(row(2, 16_000, Kernel::Raw)),
        ),
    ];
    chains.extend(named.map(|(name, chain)| (name.to_string(), chain)));
    chains
}

fn side(offsets: &[Vec<i16>], kernel: Kernel) -> Side {
    let offsets: Vec<&[i16]> = offsets.iter().map(|offset| &offset[..]).collect();
    Side::new(&offsets, kernel)
}

/// Two windows over one grid. The three points are a cell and its right and its left neighbour, in this order.
pub fn pairs() -> Vec<(&'static str, Grid, [Side; 2])> {
    let case = |number: u8, kernel: Kernel| side(&window(number).1, kernel);
    let three = |kernel: Kernel| side(&[[0, 0], [0, 1], [0, -1]].map(Vec::from), kernel);
    let (difference, third) = (Kernel::Difference, Kernel::Scaled(1.0 / 3.0));
    let blend = Kernel::Blend(Factors { a: 0.5, b: 0.125 });
    let map = Grid::new(window(1).0);
    vec![
        (
            "768 by 1024: cross and three points, difference each",
            map,
            [case(1, difference), three(difference)],
        ),
        (
            "768 by 1024: cross blend, three points scaled",
            map,
            [case(1, blend), three(third)],
        ),
        (
            "768 by 1024: 3 by 3 square raw, cross difference",
            map,
            [case(3, Kernel::Raw), case(1, difference)],
        ),
        (
            "200 rows of 100, a column further each: cross and three points, difference each",
            Grid::rows(&slanted()),
            [case(1, difference), three(difference)],
        ),
        (
            "40 by 32 by 32: seven-point cross and nineteen points, difference each",
            Grid::new(window(4).0),
            [case(4, difference), case(5, difference)],
        ),
    ]
}
