//! Random maps, and texts that say them.

mod dialect;

use compare::dice::Dice;
use desk::csv::{Axes, Cells, Dialect, Row};
use dialect::{any_dialect, joined};

const AXES: [Axes; 4] = [Axes::Both, Axes::Top, Axes::Left, Axes::None];

/// A map as its author knows it, and how it is written down.
pub struct Draft {
    pub dialect: Dialect,
    pub axes: Axes,
    pub kind: Cells,
    pub slanted: bool,
    pub width: usize,
    pub rows: Vec<Row>,
    pub words: Vec<u32>,
    pub corner: String,
    pub top: Vec<String>,
    pub left: Vec<String>,
    /// What is in quotes at least, so that the reader finds its way.
    pub quoted: Vec<char>,
}

/// Any text, with what has a meaning in CSV.
fn label(dice: &mut Dice) -> String {
    const CHARACTERS: &[char] = &[
        '"', ',', ';', '\t', '\n', '\r', ' ', 'a', 'Z', '7', '.', '-', 'é', '\u{feff}', '\u{a0}',
        '\\', '字',
    ];
    let length = dice.below(7);
    (0..length).map(|_| dice.pick(CHARACTERS)).collect()
}

fn any_word(dice: &mut Dice, kind: Cells) -> u32 {
    match kind {
        Cells::U32 => dice.float(),
        Cells::F32 => dice.finite(),
    }
}

pub fn draft(dice: &mut Dice) -> Draft {
    let (height, width) = (1 + dice.below(6), 1 + dice.below(6));
    let kind = dice.pick(&[Cells::F32, Cells::F32, Cells::U32]);
    let slanted = dice.one_in(3);
    let row = |dice: &mut Dice| {
        let start = if slanted { dice.below(width) } else { 0 };
        let length = if slanted {
            1 + dice.below(width - start)
        } else {
            width
        };
        Row { start, length }
    };
    let rows: Vec<Row> = (0..height).map(|_| row(dice)).collect();
    let count = rows.iter().map(|row| row.length).sum();
    let dialect = any_dialect(dice);
    Draft {
        dialect,
        axes: dice.pick(&AXES),
        kind,
        slanted,
        width,
        words: (0..count).map(|_| any_word(dice, kind)).collect(),
        rows,
        corner: label(dice),
        top: (0..width).map(|_| label(dice)).collect(),
        left: (0..height).map(|_| label(dice)).collect(),
        quoted: vec!['"', '\n', '\r', '\u{feff}', char::from(dialect.delimiter)],
    }
}

/// A number's text with the dialect's sign: short, or with an exponent, or with more digits than it needs.
fn number(dice: &mut Dice, word: u32, draft: &Draft) -> String {
    let value = f32::from_bits(word);
    let text = match (draft.kind, dice.below(4)) {
        (Cells::U32, _) => return word.to_string(),
        (_, 0) => format!("{value:e}"),
        (_, 1) => format!("{value:.12E}"),
        (_, 2) if !value.is_sign_negative() => format!("+{value}"),
        _ => format!("{value}"),
    };
    text.replace('.', &char::from(draft.dialect.decimal).to_string())
}

/// A field as RFC 4180 writes it, in quotes where it must be or may be.
fn field(dice: &mut Dice, text: &str, quoted: &[char]) -> String {
    if text.contains(quoted) || dice.one_in(4) {
        format!("\"{}\"", text.replace('"', "\"\""))
    } else {
        let blanks = ["", "", " ", "  "];
        format!("{}{text}{}", dice.pick(&blanks), dice.pick(&blanks))
    }
}

/// The fields of a row, of a slanted one with or without the empty ones behind its cells.
fn fields_of_row(dice: &mut Dice, draft: &Draft, words: &[u32], row: Row) -> Vec<String> {
    let mut fields = vec![String::new(); row.start];
    for &word in words {
        let text = number(dice, word, draft);
        fields.push(field(dice, &text, &draft.quoted));
    }
    let missing = draft.width - fields.len();
    let written = if dice.one_in(2) { missing } else { 0 };
    fields.extend(vec![String::new(); written]);
    fields
}

pub fn text_of(dice: &mut Dice, draft: &Draft) -> String {
    let mut lines: Vec<Vec<String>> = vec![];
    let has_left = matches!(draft.axes, Axes::Both | Axes::Left);
    if matches!(draft.axes, Axes::Both | Axes::Top) {
        let corner = has_left.then_some(&draft.corner);
        let labels = corner.into_iter().chain(&draft.top);
        lines.push(
            labels
                .map(|label| field(dice, label, &draft.quoted))
                .collect(),
        );
    }
    let mut words = &draft.words[..];
    for (row, label) in draft.rows.iter().zip(&draft.left) {
        let (own, rest) = words.split_at(row.length);
        words = rest;
        let mut fields = vec![];
        if has_left {
            fields.push(field(dice, label, &draft.quoted));
        }
        fields.extend(fields_of_row(dice, draft, own, *row));
        lines.push(fields);
    }
    // A single blank field without quotes would be a blank line.
    for line in &mut lines {
        if line.len() == 1 && line[0].trim().is_empty() {
            line[0] = "\"\"".to_string();
        }
    }
    joined(&lines, &draft.dialect)
}
