//! Random rows with a window each: slanted, jagged, with rows that have no iterations, long ones, and ones that 16 turns back.
use crate::dice::Dice;
use crate::draft::distinct;
use crate::ground::{Ground, Span};
use straight::{Chain, Shape};

type Rows = Vec<[u16; 2]>;

/// Rows and offsets.
pub fn shape(dice: &mut Dice) -> (Ground, Vec<Vec<i16>>) {
    let (mut rows, offsets) = match dice.below(12) {
        0..=3 => few(dice),
        4..=6 => neighbours(dice),
        7 => tight(dice),
        8 => many_references(dice),
        9 => long(dice),
        10 => high(dice),
        _ => equal(dice),
    };
    if dice.one_in(15) {
        spoil(dice, &mut rows);
    }
    (Ground::Rows(rows), offsets)
}

/// Rows of a small map.
pub fn rows(dice: &mut Dice) -> Rows {
    let count = 3 + dice.below(20);
    if dice.one_in(2) {
        slanted(dice, count)
    } else {
        jagged(dice, count)
    }
}

/// Each row starts some columns before or behind the one above.
fn slanted(dice: &mut Dice, count: usize) -> Rows {
    let step = dice.between(-2, 2);
    let start = dice.pick(&[0, 60, 4000]) + 2 * count as i64;
    let length = 3 + dice.below(20) as u16;
    (0..count as i64)
        .map(|row| [(start + step * row).min(4095) as u16, length])
        .collect()
}

/// Starts and lengths at random; at times a row that is short, or far from the others.
fn jagged(dice: &mut Dice, count: usize) -> Rows {
    let (starts, lengths) = (1 + dice.below(12), 4 + dice.below(24));
    let row = |dice: &mut Dice| {
        let start = dice.below(starts) as u16;
        let length = 1 + dice.below(lengths) as u16;
        match dice.below(16) {
            0 => [start, 1],
            1 => [start + 50, length],
            _ => [start, length],
        }
    };
    (0..count).map(|_| row(dice)).collect()
}

/// A few references on a few rows, iterations or not.
fn few(dice: &mut Dice) -> (Rows, Vec<Vec<i16>>) {
    let row = |dice: &mut Dice| [dice.below(5) as u16, 1 + dice.below(7) as u16];
    let rows = (0..1 + dice.below(7)).map(|_| row(dice)).collect();
    let count = 1 + dice.below(5);
    (rows, distinct(dice, 2, count, -2, 2))
}

/// Neighbours within one step on a small map.
pub fn neighbours(dice: &mut Dice) -> (Rows, Vec<Vec<i16>>) {
    let rows = rows(dice);
    let count = 1 + dice.below(9);
    (rows, distinct(dice, 2, count, -1, 1))
}

/// Rows that are just as long as the window is wide, or a cell more or less.
fn tight(dice: &mut Dice) -> (Rows, Vec<Vec<i16>>) {
    let count = 1 + dice.below(5);
    let offsets = distinct(dice, 2, count, -3, 3);
    let columns = offsets.iter().map(|offset| offset[1] as i64);
    let width = columns.clone().max().unwrap() - columns.min().unwrap() + 1;
    let start = dice.below(3) as u16;
    let row = |dice: &mut Dice| {
        let length = (width + dice.between(-1, 2)).max(1) as u16;
        [start + dice.below(2) as u16, length]
    };
    ((0..3 + dice.below(9)).map(|_| row(dice)).collect(), offsets)
}

/// Around 32 references.
fn many_references(dice: &mut Dice) -> (Rows, Vec<Vec<i16>>) {
    let row = |dice: &mut Dice| [dice.below(3) as u16, 14 + dice.below(12) as u16];
    let rows = (0..9 + dice.below(9)).map(|_| row(dice)).collect();
    let count = dice.pick(&[34, 40, 60]);
    let mut offsets = distinct(dice, 2, count, -4, 4);
    offsets.truncate(dice.pick(&[31, 32, 33]));
    (rows, offsets)
}

/// Rows of up to 1,024 cells, references so far apart that the largest distances sum to the limit or near it.
fn long(dice: &mut Dice) -> (Rows, Vec<Vec<i16>>) {
    let shortest = dice.pick(&[1024, 1020, 900, 200]);
    let slanted = dice.one_in(2);
    let rows = (0..18 + dice.below(12) as u16)
        .map(|row| {
            let start = if slanted { row } else { dice.below(4) as u16 };
            [start, dice.between(shortest, 1024) as u16]
        })
        .collect();
    let mut offsets = vec![vec![0, 0], vec![16, dice.between(-2, 2) as i16]];
    for _ in 0..dice.below(5) {
        let offset = vec![dice.between(0, 16) as i16, dice.between(-20, 20) as i16];
        if !offsets.contains(&offset) {
            offsets.push(offset);
        }
    }
    (rows, offsets)
}

/// Around 512 rows, short ones; starts and lengths at times at their greatest.
fn high(dice: &mut Dice) -> (Rows, Vec<Vec<i16>>) {
    let count = dice.pick(&[1, 2, 100, 511, 512, 512, 512, 513, 600]);
    let start = dice.pick(&[0, 4090]);
    let row = |dice: &mut Dice| [start + dice.below(6) as u16, 1 + dice.below(9) as u16];
    let mut rows: Rows = (0..count).map(|_| row(dice)).collect();
    for _ in 0..dice.below(3) {
        rows[dice.below(count)] = [dice.pick(&[0, 4090, 4095]), 1024];
    }
    let references = 1 + dice.below(4);
    let mut offsets = distinct(dice, 2, references, -1, 1);
    if dice.one_in(4) {
        offsets.push(vec![dice.pick(&[-300, 511, 512, i16::MIN, i16::MAX]), 0]);
    }
    (rows, offsets)
}

/// Rows that form a rectangle.
fn equal(dice: &mut Dice) -> (Rows, Vec<Vec<i16>>) {
    let row = [dice.below(4096) as u16, 3 + dice.below(10) as u16];
    let count = 1 + dice.below(6);
    (
        vec![row; 3 + dice.below(8)],
        distinct(dice, 2, count, -1, 1),
    )
}

/// No row, or a start or a length outside its range.
fn spoil(dice: &mut Dice, rows: &mut Rows) {
    let at = dice.below(rows.len());
    match dice.below(6) {
        0 => rows.clear(),
        1 | 2 => rows[at][0] = dice.pick(&[4096, 4097, 0x8000, u16::MAX]),
        3 => rows[at][1] = 0,
        _ => rows[at][1] = dice.pick(&[1025, 1026, 0x8001, u16::MAX]),
    }
}

/// Capacities that are the largest distances over the first rows that have iterations, up to any of them.
pub fn for_first_rows(dice: &mut Dice, planned: &Chain) -> Vec<u32> {
    let shape = Shape::of_run(planned);
    let last = dice.below(shape.iterations as usize) as i64;
    let mut capacities = vec![0; shape.count - 1];
    let mut first = 0;
    while first <= last {
        let reads = shape.reads(first);
        for (k, capacity) in capacities.iter_mut().enumerate() {
            *capacity = (reads[k] - reads[k + 1]).max(*capacity);
        }
        first = shape.row_end(first);
    }
    capacities
}

/// Rows one after the other with the columns that all of them have iterations in: the least and the greatest index of each dimension. Where there are none, the least
/// is above the greatest.
pub fn block(dice: &mut Dice, spans: &[Span]) -> Vec<(i64, i64)> {
    if spans.is_empty() {
        return vec![(0, -1), (0, -1)];
    }
    let at = dice.below(spans.len());
    let Span {
        row,
        mut from,
        mut to,
    } = spans[at];
    let mut last = row;
    for next in &spans[at + 1..] {
        let columns = (from.max(next.from), to.min(next.to));
        if next.row != last + 1 || columns.0 > columns.1 || dice.one_in(4) {
            break;
        }
        last = next.row;
        (from, to) = columns;
    }
    vec![(row, last), (from, to)]
}
