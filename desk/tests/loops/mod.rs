//! Random maps, windows over them, and the plain nested loop.

use compare::dice::Dice;
use desk::csv::{self, Asked, Axes};
use desk::grid::Grid;
use desk::smoothing::Smoothed;
use straight::{nested_words, plan, Bounds, Factors, Kernel, Request, Window};
use zohmirka::Chain;

/// Row, column and word.
pub type Result = (i64, i64, u32);

/// A map, and a box if any.
pub struct Ground {
    rows: Vec<(usize, usize)>,
    pub bounds: Option<[[i32; 2]; 2]>,
    cells: Vec<f32>,
}

impl Ground {
    pub fn random(dice: &mut Dice) -> Ground {
        let slanted = dice.one_in(2);
        let (height, width) = (1 + dice.below(9), 1 + dice.below(9));
        let row = |dice: &mut Dice| {
            if slanted {
                (dice.below(4), 1 + dice.below(9))
            } else {
                (0, width)
            }
        };
        let rows: Vec<(usize, usize)> = (0..height).map(|_| row(dice)).collect();
        let end = |dice: &mut Dice| {
            let low = dice.below(4) as i32;
            [low, low + dice.below(4) as i32]
        };
        let bounds = dice.one_in(3).then(|| [end(dice), end(dice)]);
        let count = rows.iter().map(|row| row.1).sum();
        let cells = (0..count).map(|_| f32::from_bits(dice.finite())).collect();
        Ground {
            rows,
            bounds,
            cells,
        }
    }

    pub fn is_slanted(&self) -> bool {
        self.rows.iter().any(|&row| row != (0, self.width()))
    }

    fn width(&self) -> usize {
        self.rows
            .iter()
            .map(|(start, length)| start + length)
            .max()
            .unwrap()
    }

    /// Whether a cell lies there.
    pub fn has(&self, i: i64, j: i64) -> bool {
        let row = usize::try_from(i).ok().and_then(|i| self.rows.get(i));
        row.is_some_and(|&(start, length)| (start as i64..(start + length) as i64).contains(&j))
    }

    /// The map as a table without axes; where it is slanted, fields are empty outside.
    pub fn table(&self) -> String {
        let mut cells = self.cells.iter();
        let mut text = String::new();
        for &(start, length) in &self.rows {
            let mut fields = vec![String::new(); start];
            fields.extend(cells.by_ref().take(length).map(f32::to_string));
            fields.resize(self.width(), String::new());
            text += &(fields.join(",") + "\n");
        }
        text
    }

    /// The table as it is read.
    pub fn map(&self) -> csv::Map {
        let asked = Asked {
            axes: Some(Axes::None),
            slanted: self.is_slanted(),
            ..Asked::default()
        };
        csv::read(self.table().into_bytes(), &asked).unwrap()
    }

    /// The iterations of a window by their definition, in order.
    pub fn iterations(&self, offsets: &[[i16; 2]]) -> Vec<(i64, i64)> {
        let fits = |i: i64, j: i64| {
            offsets
                .iter()
                .all(|&[a, b]| self.has(i + i64::from(a), j + i64::from(b)))
        };
        let within = |at: i64, end: [i32; 2]| (i64::from(end[0])..=i64::from(end[1])).contains(&at);
        let boxed = |i: i64, j: i64| {
            self.bounds
                .is_none_or(|ends| within(i, ends[0]) && within(j, ends[1]))
        };
        (-2..12)
            .flat_map(|i| (-3..16).map(move |j| (i, j)))
            .filter(|&(i, j)| fits(i, j) && boxed(i, j))
            .collect()
    }

    /// The results of a side by the plain loop, in order; none where it is refused.
    pub fn looped(&self, side: &Side) -> Option<Vec<Result>> {
        let rows: Vec<(u16, u16)> = self
            .rows
            .iter()
            .map(|&(start, length)| (start as u16, length as u16))
            .collect();
        let offsets: Vec<&[i16]> = side.offsets.iter().map(|offset| &offset[..]).collect();
        let request = Request {
            grid: straight::Grid::rows(&rows),
            window: Window::new(&offsets),
            bounds: self
                .bounds
                .map_or(Bounds::none(), |ends| Bounds::new(&ends)),
            kernel: side.kernel,
        };
        let chain = plan(&request).ok()?;
        let cells: Vec<u32> = self.cells.iter().map(|cell| cell.to_bits()).collect();
        let words = nested_words(&chain, &cells);
        let iterations = self.iterations(&side.offsets);
        assert_eq!(iterations.len(), words.len());
        let placed = iterations.iter().zip(words);
        Some(placed.map(|(&(i, j), word)| (i, j, word)).collect())
    }
}

/// A window in its author's order, and a kernel of one word.
pub struct Side {
    pub offsets: Vec<[i16; 2]>,
    kernel: Kernel,
}

impl Side {
    pub fn random(dice: &mut Dice) -> Side {
        let kind = dice.below(3);
        // A sum does without a centre.
        let centred = kind != 1 || dice.one_in(2);
        let mut offsets = vec![[0, 0]];
        for _ in 0..dice.below(6) {
            let offset = [dice.between(-1, 1) as i16, dice.between(-2, 2) as i16];
            if !offsets.contains(&offset) {
                offsets.push(offset);
            }
        }
        if !centred && offsets.len() > 1 {
            offsets.remove(0);
        }
        dice.shuffle(&mut offsets);
        let factor = |dice: &mut Dice| dice.between(-1000, 1000) as f32 * 0.01;
        let kernel = match kind {
            0 => Kernel::Difference,
            1 => Kernel::Scaled(factor(dice)),
            _ => Kernel::Blend(Factors {
                a: factor(dice),
                b: factor(dice),
            }),
        };
        Side { offsets, kernel }
    }

    /// The chain that the library plans.
    pub fn chain(&self, ground: &Ground, map: &csv::Map) -> Chain {
        let mut request = Grid::of_map(map).request();
        for offset in &self.offsets {
            request = request.reference(offset);
        }
        if let Some(ends) = ground.bounds {
            request = request.bounds(&ends.map(|[low, high]| (low, high)));
        }
        request.kernel(library_kernel(self.kernel)).plan().unwrap()
    }
}

fn library_kernel(kernel: Kernel) -> zohmirka::Kernel {
    match kernel {
        Kernel::Raw => zohmirka::Kernel::Raw,
        Kernel::Difference => zohmirka::Kernel::Difference,
        Kernel::Scaled(factor) => zohmirka::Kernel::Scaled(factor),
        Kernel::Blend(Factors { a, b }) => zohmirka::Kernel::Blend { a, b },
    }
}

/// The results that stand at the cells of a map, in order.
pub fn found(map: &csv::Map, after: &Smoothed) -> Vec<Result> {
    let places = (0..map.height()).flat_map(|i| (0..map.width()).map(move |j| (i, j)));
    let result = |(i, j): (usize, usize)| Some((i as i64, j as i64, after.word(i, j)?));
    places.filter_map(result).collect()
}

/// The first iteration outside a map, as a fault names it.
pub fn outside(ground: &Ground, iterations: &[(i64, i64)]) -> String {
    let first = iterations.iter().find(|&&(i, j)| !ground.has(i, j));
    let (i, j) = first.expect("no iteration lies outside the map");
    format!("row {i}, column {j} lies outside the map")
}
