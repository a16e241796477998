//! What the checks after the last line found: which part of a sheet of good lines is at fault.

use super::bounds::bad_box;
use super::order::unfinished;
use super::parts::{Content, Grid, Kernel};
use super::Kind;
use crate::wording::{dimension, float, grouped, vector};
use zohmirka::Refusal;

/// A part that is at fault, and the lines it stands on.
pub struct Finding {
    pub lines: Vec<usize>,
    pub words: String,
}

impl Finding {
    fn of(lines: &[usize], words: String) -> Finding {
        Finding {
            lines: lines.to_vec(),
            words,
        }
    }

    /// The words behind the numbers of the lines.
    pub fn with_lines(&self) -> String {
        match &self.lines[..] {
            [] => self.words.clone(),
            [line] => format!("line {line}: {}", self.words),
            [first, second, ..] => format!("lines {first} and {second}: {}", self.words),
        }
    }
}

/// The parts that made the library answer so, one or more.
pub fn findings(sheet: &[u8], kind: Kind, refusal: Refusal) -> Vec<Finding> {
    let content = Content::read(sheet);
    let found = match refusal {
        Refusal::Misplaced => vec![Finding::of(&[], unfinished(sheet, kind))],
        Refusal::EqualOffsets => equal_offsets(&content),
        Refusal::NoIteration => no_room(&content),
        Refusal::NoCentre => no_centre(&content),
        Refusal::BadFactor => bad_factors(&content),
        Refusal::TooLarge => vec![Finding::of(&[], too_large(&content, kind))],
        Refusal::BadOrder => bad_order(&content),
        Refusal::BadBox => in_box(sheet, &content),
        _ => Vec::new(),
    };
    if found.is_empty() {
        return vec![Finding::of(
            &[],
            "no line is at fault by itself".to_string(),
        )];
    }
    found
}

/// 5: the first two lines of the same offset.
fn equal_offsets(content: &Content) -> Vec<Finding> {
    let offsets = &content.offsets;
    let pair = offsets
        .iter()
        .enumerate()
        .find_map(|(k, (second, offset))| {
            let earlier = offsets[..k].iter().find(|(_, other)| other == offset);
            earlier.map(|(first, _)| Finding::of(&[*first, *second], vector(offset)))
        });
    pair.into_iter().collect()
}

/// 6: the dimensions that are too small.
fn no_room(content: &Content) -> Vec<Finding> {
    let window = content.window();
    let span = |d: usize| {
        let entries = || window.iter().filter_map(|offset| offset.get(d));
        let (least, most) = (entries().min(), entries().max());
        least
            .zip(most)
            .map_or(0, |(&least, &most)| most as i64 - least as i64 + 1)
    };
    let too_small = |name: String, size: i64, span: i64| {
        let words = format!("{name}: the size is {size}, and the window spans {span}");
        (span > size).then(|| Finding::of(&[], words))
    };
    match &content.grid {
        Some(Grid::Rectangle(sizes)) => {
            let each = sizes.iter().enumerate();
            each.filter_map(|(d, &size)| too_small(dimension(d, sizes.len()), size as i64, span(d)))
                .collect()
        }
        Some(Grid::Rows(rows)) => {
            let few = too_small("row".to_string(), rows.len() as i64, span(0));
            let words = "no row has room: wherever the window lies, a reference of it is outside";
            vec![few.unwrap_or_else(|| Finding::of(&[], words.to_string()))]
        }
        None => Vec::new(),
    }
}

/// 7: the kernel that needs a centre.
fn no_centre(content: &Content) -> Vec<Finding> {
    let zero = vector(&vec![0; content.measure().dims]);
    let words = |kernel: &Kernel| {
        format!(
            "{} needs the offset {zero}, and no reference has it",
            kernel.name()
        )
    };
    let kernel = content.kernel.iter();
    kernel
        .map(|(line, kernel)| Finding::of(&[*line], words(kernel)))
        .collect()
}

/// 8: the factors that are infinite or not a number.
fn bad_factors(content: &Content) -> Vec<Finding> {
    let Some((line, kernel)) = &content.kernel else {
        return Vec::new();
    };
    let factors = match *kernel {
        Kernel::Raw | Kernel::Difference => vec![],
        Kernel::Scaled(factor) => vec![("the factor", factor)],
        Kernel::Blend(a, b) => vec![("a", a), ("b", b)],
    };
    let bad = factors
        .into_iter()
        .filter(|&(_, bits)| !f32::from_bits(bits).is_finite());
    let words = |(name, bits)| format!("{name} is {} ({bits:08X})", float(bits));
    bad.map(|factor| Finding::of(&[*line], words(factor)))
        .collect()
}

/// 9.
fn too_large(content: &Content, kind: Kind) -> String {
    let sum = content
        .capacities
        .iter()
        .map(|&capacity| capacity as u128)
        .sum();
    match kind {
        Kind::Chain => format!(
            "the capacities sum to {}; they may sum to 16,384",
            grouped(sum)
        ),
        Kind::Request => {
            "the reuse distances sum above 16,384, which is more than a store holds".to_string()
        }
    }
}

/// 14: numbers that are no filter's, twice there or missing.
fn bad_order(content: &Content) -> Vec<Finding> {
    let Some((line, order)) = &content.order else {
        return Vec::new();
    };
    let filters = order.len();
    let times = |filter: usize| {
        order
            .iter()
            .filter(|&&held| held as usize == filter)
            .count()
    };
    let outside = order.iter().find(|&&held| held as usize >= filters);
    let twice = (0..filters).find(|&filter| times(filter) > 1);
    let missing = (0..filters).find(|&filter| times(filter) == 0);
    let words = [
        outside.map(|held| format!("{held} is no filter, they are 0 to {}", filters - 1)),
        twice.map(|filter| format!("filter {filter} stands more than once")),
        missing.map(|filter| format!("filter {filter} is missing")),
    ];
    let words: Vec<String> = words.into_iter().flatten().collect();
    vec![Finding::of(&[*line], words.join("; "))]
}

/// 15: the ends of the box that are wrong.
fn in_box(sheet: &[u8], content: &Content) -> Vec<Finding> {
    let Some((line, bounds)) = &content.bounds else {
        return Vec::new();
    };
    let each = bad_box(sheet, bounds).into_iter();
    each.map(|words| Finding::of(&[*line], words)).collect()
}
