//! A file as lines of fields.

use super::dialect::{self, Dialect};
use super::fault::Fault;
use super::split::{Behind, Field, Scanner};
use super::text;
use crate::wording::{count, grouped};

/// The fields of a file, line by line. Lines and fields are counted from 0 here, and from 1 in faults.
pub struct Table {
    /// The file's text, and behind it the texts of fields that had doubled quotes.
    text: String,
    fields: Vec<Field>,
    lines: Vec<Line>,
    dialect: Dialect,
}

struct Line {
    /// Which line of the file it begins on: line ends in quotes count.
    number: usize,
    first_field: usize,
}

/// The fields of a file, in the dialect that is asked or found.
pub fn table(bytes: Vec<u8>, delimiter: Option<u8>, decimal: Option<u8>) -> Result<Table, Fault> {
    let (text, bom) = text::decode(bytes)?;
    let dialect = Dialect {
        delimiter: dialect::delimiter(&text, delimiter)?,
        bom,
        ..Dialect::default()
    };
    let mut table = split(text, dialect)?;
    table.dialect.decimal = dialect::decimal(&table, decimal)?;
    Ok(table)
}

fn split(mut text: String, mut dialect: Dialect) -> Result<Table, Fault> {
    let delimiters = [dialect.delimiter];
    let mut scanner = Scanner::new(&text, &delimiters);
    let mut fields = vec![];
    let mut lines: Vec<Line> = vec![];
    let mut blank = None;
    while !scanner.is_done() {
        let (start, number, first_field) = (scanner.place(), scanner.line(), fields.len());
        let end = take_line(&mut scanner, &mut fields)?;
        let is_blank =
            fields.len() == first_field + 1 && text[start..scanner.place()].trim().is_empty();
        if is_blank {
            blank = blank.or(Some(number));
            fields.pop();
            continue;
        }
        if let Some(blank) = blank {
            return Err(Fault::of_line(blank, "a blank line before the last line"));
        }
        if lines.is_empty() {
            dialect.crlf = end == Behind::LineEnd { crlf: true };
        }
        lines.push(Line {
            number,
            first_field,
        });
    }
    if lines.is_empty() {
        return Err(Fault::of_file("there is nothing in the file"));
    }
    let unquoted = scanner.into_unquoted();
    text.push_str(&unquoted);
    Ok(Table {
        text,
        fields,
        lines,
        dialect,
    })
}

/// Puts the fields of one line behind the others, and says how the line ends.
fn take_line(scanner: &mut Scanner, fields: &mut Vec<Field>) -> Result<Behind, Fault> {
    let first_field = fields.len();
    loop {
        match scanner.field() {
            Ok((field, behind)) => {
                fields.push(field);
                if !matches!(behind, Behind::Delimiter(_)) {
                    return Ok(behind);
                }
            }
            Err((line, text)) => {
                let field = Some(fields.len() - first_field + 1);
                let text = text.to_string();
                return Err(Fault { line, field, text });
            }
        }
    }
}

impl Table {
    pub fn dialect(&self) -> &Dialect {
        &self.dialect
    }

    /// How many lines there are, 1 or more.
    pub fn height(&self) -> usize {
        self.lines.len()
    }

    /// How many fields a line has: 1 or more, and none of a line that is not there.
    pub fn width(&self, line: usize) -> usize {
        self.fields_of(line).len()
    }

    /// How many fields the longest line has.
    pub(super) fn widest(&self) -> usize {
        let widths = (0..self.height()).map(|line| self.width(line));
        widths.max().unwrap_or(0)
    }

    /// A field's text without the blanks around it, and nothing where there is no such field.
    pub fn field(&self, line: usize, field: usize) -> &str {
        self.whole_field(line, field).trim()
    }

    /// A field's text with the blanks around it.
    pub(super) fn whole_field(&self, line: usize, field: usize) -> &str {
        match self.fields_of(line).get(field) {
            Some(field) => field.of(&self.text),
            None => "",
        }
    }

    fn fields_of(&self, line: usize) -> &[Field] {
        let first = |line: usize| self.lines.get(line).map(|line| line.first_field);
        match first(line) {
            Some(start) => &self.fields[start..first(line + 1).unwrap_or(self.fields.len())],
            None => &[],
        }
    }

    /// The line of the file on which a field of a line begins.
    pub(crate) fn line_of(&self, line: usize, field: usize) -> usize {
        let ends_in = |field| self.whole_field(line, field).matches('\n').count();
        let ends_before: usize = (0..field).map(ends_in).sum();
        self.lines[line].number + ends_before
    }

    pub(crate) fn fault(&self, line: usize, field: usize, text: impl Into<String>) -> Fault {
        Fault {
            line: self.line_of(line, field),
            field: Some(field + 1),
            text: text.into(),
        }
    }

    /// A fault where every line ends with a delimiter, as some programs write them.
    pub(super) fn expect_last_column(&self) -> Result<(), Fault> {
        let is_open = |line: usize| {
            let last = self.width(line) - 1;
            last > 0 && self.field(line, last).is_empty()
        };
        if !(0..self.height()).all(is_open) {
            return Ok(());
        }
        let text = "every line ends with a delimiter, so the last column is empty; leave it out";
        Err(self.fault(0, self.width(0) - 1, text.to_string()))
    }

    /// A fault where a line has more or fewer fields than the first.
    pub(crate) fn expect_even(&self) -> Result<(), Fault> {
        let expected = self.width(0);
        let uneven = (0..self.height()).find(|&line| self.width(line) != expected);
        let Some(line) = uneven else { return Ok(()) };
        let (fields, expected) = (count(self.width(line), "field"), grouped(expected as u128));
        let text = format!("{fields}, and the first line has {expected}");
        Err(Fault::of_line(self.lines[line].number, text))
    }
}

#[cfg(test)]
mod tests {
    use super::*;

    fn of(text: &str) -> Result<Table, Fault> {
        table(text.as_bytes().to_vec(), None, None)
    }

    fn fault(text: &str) -> String {
        of(text).err().expect("the table has a fault").to_string()
    }

    #[test]
    fn fields_by_line() {
        let table = of("a, b\n\"c\"\"d\",e,\n").expect("the table is well formed");
        assert_eq!(table.height(), 2);
        assert_eq!([table.width(0), table.width(1), table.width(2)], [2, 3, 0]);
        assert_eq!(table.field(0, 1), "b");
        assert_eq!(table.whole_field(0, 1), " b");
        assert_eq!(table.field(1, 0), "c\"d");
        assert_eq!(table.field(1, 2), "");
        assert_eq!(table.field(1, 3), "");
        assert_eq!(table.field(7, 0), "");
    }

    #[test]
    fn blank_lines_may_stand_at_the_end_alone() {
        assert_eq!(of("1\n2\n\n \r\n\n").map(|table| table.height()), Ok(2));
        let blank = "a blank line before the last line";
        assert_eq!(fault("1\n\n \n2\n"), format!("2: {blank}"));
        assert_eq!(fault("\n1\n"), format!("1: {blank}"));
        assert_eq!(of("1\n\"\"\n2\n").map(|table| table.height()), Ok(3));
        assert_eq!(of("\t\n\t\n").map(|table| table.height()), Ok(2));
    }

    #[test]
    fn nothing_in_the_file() {
        for text in ["", "\n", " \n\r\n", "\u{feff}", "\u{feff}\n"] {
            assert_eq!(fault(text), "1: there is nothing in the file");
        }
    }

    #[test]
    fn faults_count_the_line_ends_in_quotes() {
        let table = of("\"a\nb\",c\n\"d\n\"\"e\n\",f\n").expect("the table is well formed");
        assert_eq!(table.fault(0, 0, "x").to_string(), "1:1: x");
        assert_eq!(table.fault(0, 1, "x").to_string(), "2:2: x");
        assert_eq!(table.fault(1, 0, "x").to_string(), "3:1: x");
        assert_eq!(table.fault(1, 1, "x").to_string(), "5:2: x");
        assert_eq!(
            fault("1,2\n3,\"4\n"),
            "2:2: a quote is opened and never closed"
        );
        assert_eq!(fault("1,2\n\"3\n\"4,5"), "3:1: text behind a closing quote");
    }

    #[test]
    fn uneven_lines() {
        let uneven = |text| of(text).and_then(|table| table.expect_even());
        assert_eq!(uneven("1,2\n3,4\n"), Ok(()));
        let text = |text| uneven(text).unwrap_err().to_string();
        assert_eq!(
            text("1,\"a\nb\"\n3,4,5\n"),
            "3: 3 fields, and the first line has 2"
        );
        assert_eq!(text("1,2\n3,4\n5"), "3: 1 field, and the first line has 2");
    }
}
