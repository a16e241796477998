//! How numbers, vectors, pieces of input and tables are written for people.

use std::fmt::Display;

/// A piece of input as a message may show it: the first 60 characters, all others than printable
/// ASCII escaped.
fn cut(text: &[u8]) -> String {
    cut_to(text, 60)
}

/// The same of another length.
pub fn cut_to(text: &[u8], most: usize) -> String {
    let shown = text[..text.len().min(most)].escape_ascii().to_string();
    if text.len() > most {
        return shown + "..";
    }
    shown
}

/// A line of a sheet and words for it, each on an indented line of its own; an empty line is not shown.
pub fn under(line: &[u8], words: &str) -> String {
    if line.is_empty() {
        return format!("\n  {words}");
    }
    format!("\n  {}\n  {words}", cut(line))
}

/// A vector such as `(1,0)`.
pub fn vector<T: Display>(entries: &[T]) -> String {
    let entries: Vec<String> = entries.iter().map(T::to_string).collect();
    format!("({})", entries.join(","))
}

/// What a dimension is called on a grid of so many.
pub fn dimension(index: usize, dims: usize) -> String {
    match (dims, index) {
        (2, 0) => "row".to_string(),
        (2, 1) => "column".to_string(),
        _ => format!("dimension {index}"),
    }
}

/// A number with a comma before each three digits, such as 16,384.
pub fn grouped(number: u128) -> String {
    let digits = number.to_string();
    let mut text = String::new();
    for (at, digit) in digits.chars().enumerate() {
        if at > 0 && (digits.len() - at).is_multiple_of(3) {
            text.push(',');
        }
        text.push(digit);
    }
    text
}

/// A count and what is counted, such as `1 byte` or `2 bytes`.
pub fn count(number: usize, thing: &str) -> String {
    let end = if number == 1 { "" } else { "s" };
    format!("{} {thing}{end}", grouped(number as u128))
}

/// The f32 of these bits.
pub fn float(bits: u32) -> String {
    let value = f32::from_bits(bits);
    if value.is_nan() {
        return "not a number".to_string();
    }
    if value.is_infinite() {
        let sign = if value < 0.0 { "minus " } else { "" };
        return format!("{sign}infinite");
    }
    format!("{value:?}")
}

/// Several things with a word before the last, such as "`02`, `08` or `04`".
pub fn listed(things: &[String], word: &str) -> String {
    match things.split_last() {
        Some((last, [])) => last.clone(),
        Some((last, others)) => format!("{} {word} {last}", others.join(", ")),
        None => String::new(),
    }
}

/// A range such as `row 1 to 3`; its ends are written once where they are the same.
pub fn ends(what: &str, low: i64, high: i64) -> String {
    if low == high {
        return format!("{what} {low}");
    }
    format!("{what} {low} to {high}")
}

/// Lines of fields, each column as wide as its widest field.
pub fn columns(lines: &[Vec<String>]) -> String {
    let count = lines.iter().map(Vec::len).max().unwrap_or(0);
    let wide = |column: usize| {
        let widths = lines
            .iter()
            .filter_map(|line| line.get(column))
            .map(|field| field.chars().count());
        widths.max().unwrap_or(0)
    };
    let widths: Vec<usize> = (0..count).map(wide).collect();
    let shown = |line: &Vec<String>| {
        let fields = line
            .iter()
            .zip(&widths)
            .map(|(field, &width)| format!("{field:width$}"));
        fields.collect::<Vec<_>>().join("  ").trim_end().to_string() + "\n"
    };
    lines.iter().map(shown).collect()
}

#[cfg(test)]
mod tests {
    use super::*;

    #[test]
    fn pieces_of_input_are_cut_and_escaped() {
        assert_eq!(cut(b"0\xFF\r\0"), "0\\xff\\r\\x00");
        assert_eq!(cut(&[b'7'; 60]), "7".repeat(60));
        assert_eq!(cut(&[b'7'; 61]), "7".repeat(60) + "..");
    }

    #[test]
    fn numbers_and_lists() {
        assert_eq!(
            [0, 999, 1000, 1_048_576].map(grouped),
            ["0", "999", "1,000", "1,048,576"]
        );
        assert_eq!(
            [0x4140_0000, 0x7F80_0000, 0xFF80_0000, 0xFFC0_0000].map(float),
            ["12.0", "infinite", "minus infinite", "not a number"]
        );
        let things = ["a", "b", "c"].map(str::to_string);
        assert_eq!(listed(&things, "or"), "a, b or c");
        assert_eq!(listed(&things[..1], "or"), "a");
        assert_eq!(vector(&[1, -1]), "(1,-1)");
    }

    #[test]
    fn columns_are_as_wide_as_they_must_be() {
        let lines = [
            vec!["a".to_string(), "bcd".into()],
            vec!["efg".into(), "".into()],
            vec!["".into(), "h".into()],
        ];
        assert_eq!(columns(&lines), "a    bcd\nefg\n     h\n");
        assert_eq!(columns(&[]), "");
    }
}
