//! How often row counts, starts and lengths stood at the ends of their ranges and were accepted, or a step outside and alone turned the grid back.
use crate::words::{CHAIN_WORDS, GRID_KIND, ROW_COUNT};
use straight::grid::MOST_ROWS;
use straight::judge::{MOST_LENGTH, MOST_START};
use straight::Refusal;

/// Those inside the ranges, then those outside.
const ENDS: [&str; 11] = [
    "1 row",
    "512 rows",
    "start 4,095",
    "length 1",
    "length 1,024",
    "0 rows",
    "513 rows",
    "start 4,096",
    "length 0",
    "length 1,025",
    "rows not lent",
];
const INSIDE: usize = 5;

#[derive(Default)]
pub struct Limits {
    sheets: [u64; ENDS.len()],
    words: [u64; ENDS.len()],
}

impl Limits {
    /// A sheet that was answered by this number, where its first line has rows.
    pub fn count_sheet(&mut self, text: &[u8], refusal: u32) {
        if let Some(numbers) = numbers(text) {
            count(&mut self.sheets, numbers[0], &numbers[1..], refusal);
        }
    }

    /// A chain's words and the rows beside them.
    pub fn count_words(&mut self, words: &[u32], rows: &[u32], refusal: u32) {
        if words.len() >= CHAIN_WORDS && words[GRID_KIND] != 0 {
            count(&mut self.words, words[ROW_COUNT], rows, refusal);
        }
    }

    pub fn print(&self) {
        for (way, counts) in [("sheets", &self.sheets), ("words", &self.words)] {
            let list: Vec<String> = ENDS
                .iter()
                .zip(counts)
                .map(|(end, count)| format!("{end} {count}"))
                .collect();
            println!("rows at their limits, {way}: {}", list.join("; "));
        }
    }

    /// What should have come up and did not. A sheet that lacks rows is malformed.
    pub fn missing(&self) -> Vec<String> {
        let sheets = self.sheets[..ENDS.len() - 1].iter().zip(ENDS);
        let words = self.words.iter().zip(ENDS);
        let none = sheets.chain(words).filter(|(&count, _)| count == 0);
        none.map(|(_, end)| format!("no grid with {end}")).collect()
    }
}

/// The row count, the starts and the lengths of an `09` line in front of a sheet.
fn numbers(text: &[u8]) -> Option<Vec<u32>> {
    let line = text.split(|&c| c == b'\n').next()?.strip_prefix(b"09")?;
    let number = |digits| u32::from_str_radix(std::str::from_utf8(digits).ok()?, 16).ok();
    let numbers: Vec<u32> = line.chunks(4).map(number).collect::<Option<_>>()?;
    (!numbers.is_empty()).then_some(numbers)
}

fn count(counts: &mut [u64; ENDS.len()], rows: u32, numbers: &[u32], refusal: u32) {
    let in_range = rows >= 1 && rows <= MOST_ROWS as u32;
    let needed = if in_range { 2 * rows as usize } else { 0 };
    let lent = needed.min(numbers.len());
    let starts = || numbers[..lent].iter().step_by(2);
    let lengths = || numbers[..lent].iter().skip(1).step_by(2);
    let (start, length) = (MOST_START as u32, MOST_LENGTH as u32);
    let outside = !in_range as usize
        + (lent < needed) as usize
        + starts().filter(|&&s| s > start).count()
        + lengths().filter(|&&l| l < 1 || l > length).count();
    let ends = [
        rows == 1,
        rows == MOST_ROWS as u32,
        starts().any(|&s| s == start),
        lengths().any(|&l| l == 1),
        lengths().any(|&l| l == length),
        rows == 0,
        rows == MOST_ROWS as u32 + 1,
        starts().any(|&s| s == start + 1),
        lengths().any(|&l| l == 0),
        lengths().any(|&l| l == length + 1),
        lent < needed,
    ];
    for (k, end) in ends.into_iter().enumerate() {
        let (out, due) = match k {
            0..INSIDE => (0, 0),
            _ => (1, Refusal::BadRows.number() as u32),
        };
        counts[k] += (end && outside == out && refusal == due) as u64;
    }
}
