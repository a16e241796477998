//! How a file writes its fields and numbers.

use std::fmt;

use super::fault::{excerpt, Fault};
use super::number::number;
use super::split::{Behind, Scanner};
use super::table::Table;
use super::text::BYTE_ORDER_MARK;
use super::Cells;

/// What may part fields, in the order in which it is looked for on the first line.
const DELIMITERS: [u8; 3] = [b'\t', b';', b','];

/// An f32 is a whole number of 2^-149, so more decimals than these are all 0.
const MOST_DIGITS: usize = 149;

#[derive(Clone, Copy, Debug, PartialEq, Eq)]
pub struct Dialect {
    pub delimiter: u8,
    pub decimal: u8,
    pub crlf: bool,
    pub bom: bool,
}

impl Default for Dialect {
    fn default() -> Dialect {
        Dialect {
            delimiter: b',',
            decimal: b'.',
            crlf: false,
            bom: false,
        }
    }
}

impl fmt::Display for Dialect {
    fn fmt(&self, out: &mut fmt::Formatter) -> fmt::Result {
        match self.delimiter {
            b'\t' => write!(out, "tab between fields")?,
            other => write!(out, "'{}' between fields", char::from(other))?,
        }
        write!(out, ", decimal '{}'", char::from(self.decimal))
    }
}

impl Dialect {
    /// The text of a word: the shortest that is read as the same word, or with so many digits behind the decimal sign.
    pub fn shown(&self, word: u32, kind: Cells, digits: Option<usize>) -> String {
        let value = f32::from_bits(word);
        let text = match (kind, digits) {
            (Cells::U32, _) => return word.to_string(),
            (Cells::F32, _) if value.is_nan() => return "nan".to_string(),
            (Cells::F32, None) => shortest(value),
            (Cells::F32, Some(digits)) => format!("{value:.*}", digits.min(MOST_DIGITS)),
        };
        self.with_decimal(text)
    }

    /// A number's text with this dialect's decimal sign in place of the point.
    pub(crate) fn with_decimal(&self, text: String) -> String {
        if self.decimal == b'.' {
            text
        } else {
            text.replace('.', &char::from(self.decimal).to_string())
        }
    }

    /// Whether a field of this text would be read as another text, or make the first line look like another dialect's,
    /// if it stood without quotes.
    pub(super) fn must_quote(&self, text: &str) -> bool {
        let own = DELIMITERS.iter().position(|&one| one == self.delimiter);
        let before = &DELIMITERS[..own.unwrap_or(0)];
        let special =
            |byte| byte == self.delimiter || before.contains(&byte) || b"\"\r\n".contains(&byte);
        text.bytes().any(special) || text.starts_with(BYTE_ORDER_MARK)
    }
}

/// The shortest digits that are read as the same f32, with an exponent where there were many zeros.
fn shortest(value: f32) -> String {
    const MOST_PLAIN: usize = 20;
    let plain = value.to_string();
    if plain.len() > MOST_PLAIN {
        return format!("{value:e}");
    }
    plain
}

/// What parts the fields of a text: what was asked, or what stands on the first line outside quotes.
pub(super) fn delimiter(text: &str, asked: Option<u8>) -> Result<u8, Fault> {
    match asked {
        Some(delimiter) if DELIMITERS.contains(&delimiter) => Ok(delimiter),
        Some(_) => Err(Fault::of_file("--delimiter is , or ; or a tab")),
        None => Ok(delimiter_of_first_line(text)),
    }
}

fn delimiter_of_first_line(text: &str) -> u8 {
    let mut scanner = Scanner::new(text, &DELIMITERS);
    let mut seen = [false; DELIMITERS.len()];
    while let Ok((_, Behind::Delimiter(delimiter))) = scanner.field() {
        for (seen, one) in seen.iter_mut().zip(DELIMITERS) {
            *seen |= one == delimiter;
        }
    }
    let first = seen.iter().position(|&seen| seen);
    first.map_or(b',', |first| DELIMITERS[first])
}

/// The decimal sign of a table: what was asked, or what stands in its numbers.
pub(super) fn decimal(table: &Table, asked: Option<u8>) -> Result<u8, Fault> {
    let comma_parts = table.dialect().delimiter == b',';
    match asked {
        Some(b',') if comma_parts => Err(Fault::of_file(
            "--decimal , where , stands between fields; --delimiter names another delimiter",
        )),
        Some(decimal @ (b'.' | b',')) => Ok(decimal),
        Some(_) => Err(Fault::of_file("--decimal is . or ,")),
        None if comma_parts => Ok(b'.'),
        None => decimal_of_numbers(table),
    }
}

fn decimal_of_numbers(table: &Table) -> Result<u8, Fault> {
    let mut point = None;
    let mut comma = None;
    for line in 0..table.height() {
        for field in 0..table.width(line) {
            let text = table.field(line, field);
            let says =
                |sign| text.contains(char::from(sign)) && number::<f32>(text, sign).is_some();
            if point.is_none() && says(b'.') {
                point = Some((line, field));
            }
            if comma.is_none() && says(b',') {
                comma = Some((line, field));
            }
            if let (Some(point), Some(comma)) = (point, comma) {
                return Err(two_decimals(table, point.min(comma), point.max(comma)));
            }
        }
    }
    Ok(if comma.is_some() { b',' } else { b'.' })
}

fn two_decimals(table: &Table, first: (usize, usize), second: (usize, usize)) -> Fault {
    let text = format!(
        "{} here and {} on line {}; --decimal . or --decimal , says which is a number",
        excerpt(table.field(second.0, second.1)),
        excerpt(table.field(first.0, first.1)),
        table.line_of(first.0, first.1)
    );
    table.fault(second.0, second.1, text)
}

#[cfg(test)]
mod tests {
    use super::super::table;
    use super::*;

    fn dialect(text: &str) -> Dialect {
        let table = table(text.as_bytes().to_vec(), None, None);
        *table.expect("the table is well formed").dialect()
    }

    fn fault(text: &str, delimiter: Option<u8>, decimal: Option<u8>) -> String {
        let table = table(text.as_bytes().to_vec(), delimiter, decimal);
        table.err().expect("the table has a fault").to_string()
    }

    #[test]
    fn texts_are_short_and_have_an_exponent_only_where_they_would_be_long() {
        let shown = |value: f32| Dialect::default().shown(value.to_bits(), Cells::F32, None);
        assert_eq!(shown(1000000.0), "1000000");
        assert_eq!(shown(0.000_122_070_31), "0.00012207031");
        assert_eq!(shown(-0.0), "-0");
        assert_eq!(shown(1e19), "10000000000000000000");
        assert_eq!(shown(1e20), "1e20");
        assert_eq!(shown(f32::MIN), "-3.4028235e38");
        assert_eq!(shown(f32::from_bits(1)), "1e-45");
        assert_eq!(shown(f32::NEG_INFINITY), "-inf");
        let comma = Dialect {
            delimiter: b';',
            decimal: b',',
            ..Dialect::default()
        };
        assert_eq!(
            comma.shown(f32::MAX.to_bits(), Cells::F32, None),
            "3,4028235e38"
        );
    }

    #[test]
    fn the_delimiter_stands_on_the_first_line_outside_quotes() {
        let expected = [
            ("a,b;c\td\n", b'\t'),
            ("a,b;c\nd\te\n", b';'),
            ("a,b\nc;d\n", b','),
            ("a\n", b','),
            ("\"a\tb\";\"c\td\"\n", b';'),
            ("a, \"b;\tc\"\n", b','),
            ("\"a\n\tb\";c\n", b';'),
            ("5\" pipe;b\n", b';'),
        ];
        for (text, delimiter) in expected {
            assert_eq!(dialect(text).delimiter, delimiter, "{text}");
        }
    }

    #[test]
    fn the_decimal_stands_in_the_numbers() {
        let expected = [
            ("1.5,2\n", b'.'),
            ("1,5;2\n", b','),
            ("1.5;2\n", b'.'),
            ("1;2\n", b'.'),
            ("1,5\t-2,5e3\n", b','),
            ("load, percent;3.5\n", b'.'),
            ("n. b.;3,5\n", b','),
            ("17.11.2026;3,5\n", b','),
            ("1.234,5;2\n", b'.'),
        ];
        for (text, decimal) in expected {
            assert_eq!(dialect(text).decimal, decimal, "{text}");
        }
        assert_eq!(
            fault("1,5;2\n3;2.5\n", None, None),
            "2:2: \"2.5\" here and \"1,5\" on line 1; --decimal . or --decimal , says which is a number"
        );
    }

    #[test]
    fn line_ends_and_byte_order_mark() {
        assert!(!dialect("1\n2\r\n").crlf);
        assert!(dialect("1\r\n2\n").crlf);
        assert!(!dialect("\"a\r\nb\",2\n1,2\r\n").crlf);
        assert!(!dialect("1").crlf);
        assert!(dialect("\u{feff}1").bom);
    }

    #[test]
    fn what_is_asked_has_to_be_possible() {
        assert_eq!(
            fault("1 2\n", Some(b' '), None),
            "1: --delimiter is , or ; or a tab"
        );
        assert_eq!(fault("1;2\n", None, Some(b'x')), "1: --decimal is . or ,");
        assert_eq!(
            fault("1,2\n", None, Some(b',')),
            "1: --decimal , where , stands between fields; --delimiter names another delimiter"
        );
    }

    #[test]
    fn dialects_in_words() {
        let mut dialect = Dialect::default();
        assert_eq!(dialect.to_string(), "',' between fields, decimal '.'");
        dialect.delimiter = b'\t';
        dialect.decimal = b',';
        assert_eq!(dialect.to_string(), "tab between fields, decimal ','");
    }

    #[test]
    fn words_are_shown_in_the_dialect() {
        let comma = Dialect {
            delimiter: b';',
            decimal: b',',
            ..Dialect::default()
        };
        let shown = |value: f32, digits| comma.shown(value.to_bits(), Cells::F32, digits);
        assert_eq!(shown(0.1, None), "0,1");
        assert_eq!(shown(-0.0, None), "-0");
        assert_eq!(shown(1e10, None), "10000000000");
        assert_eq!(shown(2.675, Some(1)), "2,7");
        assert_eq!(shown(2.0, Some(0)), "2");
        assert_eq!(shown(f32::NAN, Some(2)), "nan");
        assert_eq!(shown(-f32::NAN, None), "nan");
        assert_eq!(shown(f32::INFINITY, Some(3)), "inf");
        assert_eq!(shown(f32::NEG_INFINITY, None), "-inf");
        assert_eq!(shown(1.0, Some(usize::MAX)).len(), 2 + 149);
        assert_eq!(comma.shown(u32::MAX, Cells::U32, Some(2)), "4294967295");
    }
}
