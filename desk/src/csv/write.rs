//! Maps written in the dialect that they were read in.

use std::borrow::Cow;

use super::dialect::Dialect;
use super::map::Map;
use super::text::BYTE_ORDER_MARK;

/// What is written into the cells.
#[derive(Clone, Copy, Debug, Default, PartialEq, Eq)]
pub struct Form {
    /// How many digits stand behind the decimal sign; else the shortest text of the same number.
    pub digits: Option<usize>,
    pub rim: Rim,
}

/// What is written into a cell that has no result.
#[derive(Clone, Copy, Debug, Default, PartialEq, Eq)]
pub enum Rim {
    #[default]
    Empty,
    /// The text as read.
    Keep,
}

impl Map {
    /// The map with results in its cells: each line has the fields that it was read with, and what lies outside a
    /// slanted map is empty.
    pub fn write(&self, form: &Form, result: impl Fn(usize, usize) -> Option<u32>) -> Vec<u8> {
        let grid = self.grid();
        let mut writer = Writer::new(*self.dialect());
        let (lines, fields) = (grid.axes.lines(), grid.axes.fields());
        for line in 0..grid.table.height() {
            for field in 0..grid.table.width(line) {
                if line < lines || field < fields {
                    writer.field(grid.table.whole_field(line, field));
                } else {
                    let (row, column) = (line - lines, field - fields);
                    writer.field(&self.written(row, column, form, result(row, column)));
                }
            }
            writer.end_line();
        }
        writer.into_bytes()
    }

    fn written(&self, row: usize, column: usize, form: &Form, result: Option<u32>) -> Cow<'_, str> {
        match (self.word(row, column), result, form.rim) {
            (None, _, _) | (_, None, Rim::Empty) => Cow::Borrowed(""),
            (_, None, Rim::Keep) => Cow::Borrowed(self.text(row, column)),
            (_, Some(word), _) => {
                let kind = self.kind();
                Cow::Owned(self.dialect().shown(word, kind, form.digits))
            }
        }
    }
}

/// Writes lines of fields in a dialect.
pub struct Writer {
    dialect: Dialect,
    bytes: Vec<u8>,
    line_start: usize,
    fields: usize,
    is_blank: bool,
}

impl Writer {
    pub fn new(dialect: Dialect) -> Writer {
        let mark = if dialect.bom { BYTE_ORDER_MARK } else { "" };
        Writer {
            dialect,
            bytes: mark.as_bytes().to_vec(),
            line_start: mark.len(),
            fields: 0,
            is_blank: true,
        }
    }

    /// Writes a field behind the others of the line, in quotes where it must be.
    pub fn field(&mut self, text: &str) {
        if self.fields > 0 {
            self.bytes.push(self.dialect.delimiter);
        }
        self.fields += 1;
        self.is_blank &= text.trim().is_empty();
        if self.dialect.must_quote(text) {
            self.bytes.push(b'"');
            self.bytes.extend(text.replace('"', "\"\"").into_bytes());
            self.bytes.push(b'"');
        } else {
            self.bytes.extend(text.as_bytes());
        }
    }

    pub fn end_line(&mut self) {
        // A single empty field without quotes would be a blank line.
        if self.fields <= 1 && self.is_blank {
            self.bytes.truncate(self.line_start);
            self.bytes.extend(b"\"\"");
        }
        let end: &[u8] = if self.dialect.crlf { b"\r\n" } else { b"\n" };
        self.bytes.extend(end);
        self.line_start = self.bytes.len();
        self.fields = 0;
        self.is_blank = true;
    }

    pub fn into_bytes(self) -> Vec<u8> {
        self.bytes
    }
}

#[cfg(test)]
mod tests {
    use super::super::{read, Asked, Axes, Cells};
    use super::*;

    fn map(text: &str, asked: &Asked) -> Map {
        match read(text.as_bytes().to_vec(), asked) {
            Ok(map) => map,
            Err(fault) => panic!("{fault}"),
        }
    }

    fn with_axes(axes: Axes) -> Asked {
        Asked {
            axes: Some(axes),
            ..Asked::default()
        }
    }

    fn slanted(axes: Option<Axes>) -> Asked {
        Asked {
            axes,
            slanted: true,
            ..Asked::default()
        }
    }

    fn written(map: &Map, form: Form, result: impl Fn(usize, usize) -> Option<u32>) -> String {
        String::from_utf8(map.write(&form, result)).expect("what is written is UTF-8")
    }

    #[test]
    fn words_are_written_as_integers() {
        let words = Asked {
            cells: Cells::U32,
            ..Asked::default()
        };
        let map = map("x,600,650\n5,0,4294967295\n", &words);
        assert_eq!(
            written(&map, Form::default(), |_, column| Some(column as u32)),
            "x,600,650\n5,0,1\n"
        );
    }

    #[test]
    fn a_map_is_written_in_the_dialect_that_it_was_read_in() {
        let text =
            "\u{feff}load\\rpm;\"6;0\";\" a\"\"b\";c, d\r\n5 ;1,5;2;3\r\n\"1\n0\"; 4;\"5\";6\r\n\r\n";
        let map = map(text, &with_axes(Axes::Both));
        let result = |row, column| (row == 0).then(|| (column as f32 + 0.25).to_bits());
        let empty =
            "\u{feff}load\\rpm;\"6;0\";\" a\"\"b\";c, d\r\n5 ;0,25;1,25;2,25\r\n\"1\n0\";;;\r\n";
        assert_eq!(written(&map, Form::default(), result), empty);
        let keep = Form {
            digits: Some(1),
            rim: Rim::Keep,
        };
        let kept =
            "\u{feff}load\\rpm;\"6;0\";\" a\"\"b\";c, d\r\n5 ;0,2;1,2;2,2\r\n\"1\n0\";4;5;6\r\n";
        assert_eq!(written(&map, keep, result), kept);
    }

    #[test]
    fn outside_a_slanted_map_nothing_is_written() {
        let map = map("x,600,650,700\n5,,2,3\n10,3\n", &slanted(None));
        let keep = Form {
            digits: None,
            rim: Rim::Keep,
        };
        assert_eq!(
            written(&map, keep, |_, _| None),
            "x,600,650,700\n5,,2,3\n10,3\n"
        );
        let ones = |_, _| Some(1f32.to_bits());
        assert_eq!(written(&map, keep, ones), "x,600,650,700\n5,,1,1\n10,1\n");
    }

    #[test]
    fn results_that_are_not_finite_have_names() {
        let map = map("1,3,2,4", &Asked::default());
        let words = [f32::NAN, f32::INFINITY, f32::NEG_INFINITY, -0.0].map(f32::to_bits);
        let result = |_, column: usize| Some(words[column]);
        assert_eq!(written(&map, Form::default(), result), "nan,inf,-inf,-0\n");
    }

    #[test]
    fn fields_keep_their_quotes_where_the_first_line_would_look_otherwise() {
        for text in [
            "\"a;b\",1\nc,2\n",
            "\"\u{feff}a\",1\nc,2\n",
            "\"a\tb\";1\nc;2\n",
        ] {
            let map = map(text, &with_axes(Axes::Left));
            let result = |row: usize, _| Some((row as f32 + 1.0).to_bits());
            assert_eq!(written(&map, Form::default(), result), text);
        }
    }

    #[test]
    fn a_single_empty_field_is_no_blank_line() {
        let map = map("1\n2\n3\n", &Asked::default());
        let result = |row, _| (row == 1).then_some(5f32.to_bits());
        assert_eq!(written(&map, Form::default(), result), "\"\"\n5\n\"\"\n");
    }

    #[test]
    fn long_and_short_lines_of_a_slanted_map_stay_small() {
        let text = format!("{}1\n{}", ",".repeat(100_000), "2\n".repeat(50_000));
        let map = map(&text, &slanted(Some(Axes::None)));
        assert_eq!((map.height(), map.width()), (50_001, 100_001));
        assert_eq!(map.cells().len(), 50_001);
        assert_eq!(map.word(0, 100_000), Some(1f32.to_bits()));
        assert_eq!(map.word(50_000, 0), Some(2f32.to_bits()));
        assert_eq!(
            written(&map, Form::default(), |row, column| map.word(row, column)),
            text
        );
    }
}
