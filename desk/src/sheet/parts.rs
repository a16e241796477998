//! What the bytes of a line say (`docs/SHEETS.md`, "Kinds of line"). Nothing is judged here: the library
//! has taken the line, or words alone hang on it.

use super::locate::{lines, without_end};

#[derive(Clone, Debug, PartialEq, Eq)]
pub enum Grid {
    /// The size of each dimension.
    Rectangle(Vec<u32>),
    /// Start and length of each row.
    Rows(Vec<(u16, u16)>),
}

/// A kernel with the bits of its factors.
#[derive(Clone, Copy, Debug, PartialEq, Eq)]
pub enum Kernel {
    Raw,
    Difference,
    Scaled(u32),
    Blend(u32, u32),
}

impl Kernel {
    pub fn name(&self) -> &'static str {
        match self {
            Kernel::Raw => "raw",
            Kernel::Difference => "difference",
            Kernel::Scaled(_) => "scaled",
            Kernel::Blend(..) => "blend",
        }
    }
}

/// What one line says.
#[derive(Clone, Debug, PartialEq, Eq)]
pub enum Part {
    Grid(Grid),
    Offset(Vec<i16>),
    Name(u8),
    /// The lowest and the highest index of each dimension.
    Bounds(Vec<(i32, i32)>),
    Capacity(u32),
    /// For each reference the number of its filter.
    Order(Vec<u8>),
    Kernel(Kernel),
    Cell(u32),
    /// The index of a firing and its words.
    Firing(u32, Vec<u32>),
    /// How a run ended and its clocks.
    Ended(u8, u32),
    Refused(u8),
}

/// What sets the length of a line beside its own bytes.
#[derive(Clone, Copy, Debug, Default)]
pub struct Measure {
    pub dims: usize,
    pub references: usize,
}

fn digit(character: u8) -> Option<u8> {
    match character {
        b'0'..=b'9' => Some(character - b'0'),
        b'A'..=b'F' => Some(character - b'A' + 10),
        _ => None,
    }
}

pub fn is_digit(character: u8) -> bool {
    digit(character).is_some()
}

/// The bytes of a line, one or more, where it is digits alone and two for each byte.
pub fn bytes(text: &[u8]) -> Option<Vec<u8>> {
    if text.is_empty() || text.len() % 2 == 1 {
        return None;
    }
    text.chunks_exact(2)
        .map(|pair| Some(16 * digit(pair[0])? + digit(pair[1])?))
        .collect()
}

/// How many bytes a line has in all, where its kind is known and its own bytes say enough.
pub fn length(bytes: &[u8], measure: Measure) -> Option<usize> {
    let Measure { dims, references } = measure;
    Some(match (bytes.first()?, bytes.get(1)) {
        (1, Some(&said)) => 2 + 4 * said as usize,
        (2, _) => 1 + 2 * dims,
        (3 | 5, _) => 5,
        (4, Some(0 | 1)) => 2,
        (4, Some(2)) => 6,
        (4, Some(3)) => 10,
        (6, _) => 1 + references,
        (7 | 0x1F, _) => 2,
        (8, _) => 1 + 8 * dims,
        (9, _) => 3 + 4 * half(bytes.get(1..3)?) as usize,
        (0x10, _) => 5 + 4 * (bytes.len().saturating_sub(5) / 4).clamp(1, 32),
        (0x11, _) => 6,
        _ => return None,
    })
}

/// What the bytes of a line say, where they are of a known kind and not too few.
pub fn part(bytes: &[u8]) -> Option<Part> {
    let (&first, rest) = bytes.split_first()?;
    Some(match first {
        1 => Part::Grid(Grid::Rectangle(words(rest.get(1..)?))),
        2 => Part::Offset(rest.chunks_exact(2).map(|e| half(e) as i16).collect()),
        3 => Part::Capacity(word(rest.get(..4)?)),
        4 => Part::Kernel(kernel(rest)?),
        5 => Part::Cell(word(rest.get(..4)?)),
        6 => Part::Order(rest.to_vec()),
        7 => Part::Name(*rest.first()?),
        8 => Part::Bounds(pairs(&words(rest), |index| index as i32)),
        9 => {
            let numbers: Vec<u16> = rest.get(2..)?.chunks_exact(2).map(half).collect();
            Part::Grid(Grid::Rows(pairs(&numbers, |number| number)))
        }
        0x10 => Part::Firing(word(rest.get(..4)?), words(&rest[4..])),
        0x11 => Part::Ended(*rest.first()?, word(rest.get(1..5)?)),
        0x1F => Part::Refused(*rest.first()?),
        _ => return None,
    })
}

fn kernel(bytes: &[u8]) -> Option<Kernel> {
    let (kernel, factors) = bytes.split_first()?;
    let factors = words(factors);
    match (kernel, &factors[..]) {
        (0, []) => Some(Kernel::Raw),
        (1, []) => Some(Kernel::Difference),
        (2, &[factor]) => Some(Kernel::Scaled(factor)),
        (3, &[a, b]) => Some(Kernel::Blend(a, b)),
        _ => None,
    }
}

/// A number of at most two bytes.
pub fn half(bytes: &[u8]) -> u16 {
    bytes.iter().fold(0, |sum, &byte| sum << 8 | byte as u16)
}

/// A number of at most four bytes.
fn word(bytes: &[u8]) -> u32 {
    bytes.iter().fold(0, |sum, &byte| sum << 8 | byte as u32)
}

fn words(bytes: &[u8]) -> Vec<u32> {
    bytes.chunks_exact(4).map(word).collect()
}

fn pairs<T: Copy, U>(numbers: &[T], of: fn(T) -> U) -> Vec<(U, U)> {
    let both = |pair: &[T]| (of(pair[0]), of(pair[1]));
    numbers.chunks_exact(2).map(both).collect()
}

/// What the lines of a sheet say, some with the line they stand on.
#[derive(Clone, Debug, Default)]
pub struct Content {
    pub grid: Option<Grid>,
    pub offsets: Vec<(usize, Vec<i16>)>,
    pub name: Option<u8>,
    pub bounds: Option<(usize, Vec<(i32, i32)>)>,
    pub capacities: Vec<u32>,
    pub order: Option<(usize, Vec<u8>)>,
    pub kernel: Option<(usize, Kernel)>,
}

impl Content {
    /// Reads a sheet of good lines; a line that says nothing is passed over.
    pub fn read(sheet: &[u8]) -> Content {
        let mut content = Content::default();
        for (before, line) in lines(sheet).enumerate() {
            if let Some(part) = bytes(without_end(line)).and_then(|bytes| part(&bytes)) {
                content.add(before + 1, part);
            }
        }
        content
    }

    fn add(&mut self, line: usize, part: Part) {
        match part {
            Part::Grid(grid) => self.grid = Some(grid),
            Part::Offset(offset) => self.offsets.push((line, offset)),
            Part::Name(name) => self.name = Some(name),
            Part::Bounds(bounds) => self.bounds = Some((line, bounds)),
            Part::Capacity(capacity) => self.capacities.push(capacity),
            Part::Order(order) => self.order = Some((line, order)),
            Part::Kernel(kernel) => self.kernel = Some((line, kernel)),
            Part::Cell(_) | Part::Firing(..) | Part::Ended(..) | Part::Refused(_) => {}
        }
    }

    pub fn measure(&self) -> Measure {
        let dims = match &self.grid {
            Some(Grid::Rectangle(sizes)) => sizes.len(),
            Some(Grid::Rows(_)) => 2,
            None => 0,
        };
        Measure {
            dims,
            references: self.offsets.len(),
        }
    }

    /// The offsets, written out or those that the name stands for.
    pub fn window(&self) -> Vec<Vec<i16>> {
        match self.name {
            Some(name) => named(name, self.measure().dims).unwrap_or_default(),
            None => self.offsets.iter().map(|(_, o)| o.clone()).collect(),
        }
    }
}

/// The offsets that a name stands for in so many dimensions, asked of the library: a plan has them, in
/// the order of the name.
pub fn named(name: u8, dims: usize) -> Option<Vec<Vec<i16>>> {
    let sizes = "00000003".repeat(dims);
    let request = format!("01{dims:02X}{sizes}\n07{name:02X}\n0400\n");
    let chain = zohmirka::plan(request.as_bytes()).ok()?;
    Some(Content::read(&chain).window())
}
