//! The fields of a text after RFC 4180. A field may stand in quotes, with blanks around them; a quote in it is then
//! doubled, and delimiters and line ends in it are characters like others.

/// Where a field's text lies.
#[derive(Clone, Copy, Debug, PartialEq, Eq)]
pub(super) struct Field {
    start: u32,
    end: u32,
}

impl Field {
    fn new(start: usize, end: usize) -> Field {
        let place = |at| u32::try_from(at).expect("the longest text has 32-bit places");
        Field {
            start: place(start),
            end: place(end),
        }
    }

    pub fn of<'a>(&self, text: &'a str) -> &'a str {
        &text[self.start as usize..self.end as usize]
    }
}

/// What stands behind a field.
#[derive(Clone, Copy, Debug, PartialEq, Eq)]
pub(super) enum Behind {
    Delimiter(u8),
    LineEnd { crlf: bool },
    Nothing,
}

/// A fault of the quotes or line ends, and its line.
pub(super) type Broken = (usize, &'static str);

/// Takes a text apart, field by field.
pub(super) struct Scanner<'a> {
    text: &'a str,
    delimiters: &'a [u8],
    stops: [bool; 256],
    place: usize,
    line: usize,
    unquoted: String,
}

impl<'a> Scanner<'a> {
    pub fn new(text: &'a str, delimiters: &'a [u8]) -> Scanner<'a> {
        let mut stops = [false; 256];
        for &stop in delimiters.iter().chain(b"\r\n") {
            stops[usize::from(stop)] = true;
        }
        Scanner {
            text,
            delimiters,
            stops,
            place: 0,
            line: 1,
            unquoted: String::new(),
        }
    }

    pub fn is_done(&self) -> bool {
        self.place == self.text.len()
    }

    pub fn place(&self) -> usize {
        self.place
    }

    /// The line of the text that comes next.
    pub fn line(&self) -> usize {
        self.line
    }

    /// The texts of fields that had doubled quotes. Their places count as if these stood behind the text.
    pub fn into_unquoted(self) -> String {
        self.unquoted
    }

    /// The next field, and what is passed over behind it.
    pub fn field(&mut self) -> Result<(Field, Behind), Broken> {
        let first = self.behind_blanks(self.place);
        let (field, fault) = if self.byte(first) == Some(b'"') {
            (self.quoted(first + 1)?, "text behind a closing quote")
        } else {
            (self.plain(), "a carriage return without its line feed")
        };
        match self.behind() {
            Some(behind) => Ok((field, behind)),
            None => Err((self.line, fault)),
        }
    }

    fn byte(&self, place: usize) -> Option<u8> {
        self.text.as_bytes().get(place).copied()
    }

    fn behind_blanks(&self, mut place: usize) -> usize {
        while let Some(byte @ (b' ' | b'\t')) = self.byte(place) {
            if self.stops[usize::from(byte)] {
                break;
            }
            place += 1;
        }
        place
    }

    fn plain(&mut self) -> Field {
        let start = self.place;
        let rest = &self.text.as_bytes()[start..];
        let stop = rest.iter().position(|&byte| self.stops[usize::from(byte)]);
        self.place = start + stop.unwrap_or(rest.len());
        Field::new(start, self.place)
    }

    /// The field whose opening quote stands before `start`.
    fn quoted(&mut self, start: usize) -> Result<Field, Broken> {
        let mut end = start;
        let mut doubled = false;
        loop {
            let quote = self.text[end..].find('"');
            end += quote.ok_or((self.line, "a quote is opened and never closed"))?;
            if self.byte(end + 1) != Some(b'"') {
                break;
            }
            doubled = true;
            end += 2;
        }
        let inside = &self.text[start..end];
        self.line += inside.bytes().filter(|&byte| byte == b'\n').count();
        self.place = self.behind_blanks(end + 1);
        Ok(if doubled {
            self.without_doubles(inside)
        } else {
            Field::new(start, end)
        })
    }

    fn without_doubles(&mut self, inside: &str) -> Field {
        let start = self.text.len() + self.unquoted.len();
        self.unquoted.push_str(&inside.replace("\"\"", "\""));
        Field::new(start, self.text.len() + self.unquoted.len())
    }

    fn behind(&mut self) -> Option<Behind> {
        let (behind, length) = match self.text.as_bytes()[self.place..] {
            [] => (Behind::Nothing, 0),
            [b'\r'] => (Behind::Nothing, 1),
            [b'\n', ..] => (Behind::LineEnd { crlf: false }, 1),
            [b'\r', b'\n', ..] => (Behind::LineEnd { crlf: true }, 2),
            [byte, ..] if self.delimiters.contains(&byte) => (Behind::Delimiter(byte), 1),
            _ => return None,
        };
        self.place += length;
        if let Behind::LineEnd { .. } = behind {
            self.line += 1;
        }
        Some(behind)
    }
}

#[cfg(test)]
mod tests {
    use super::*;

    /// All fields of a text, one behind the other, each with what stands behind it.
    fn fields(text: &str) -> Result<Vec<(String, Behind)>, Broken> {
        let mut scanner = Scanner::new(text, b",");
        let mut found = vec![];
        loop {
            found.push(scanner.field()?);
            if found
                .last()
                .is_some_and(|(_, behind)| *behind == Behind::Nothing)
            {
                break;
            }
        }
        let all = text.to_string() + &scanner.into_unquoted();
        Ok(found
            .into_iter()
            .map(|(field, behind)| (field.of(&all).to_string(), behind))
            .collect())
    }

    fn texts(text: &str) -> Vec<String> {
        let found = fields(text).expect("the text is well formed");
        found.into_iter().map(|(text, _)| text).collect()
    }

    #[test]
    fn plain_fields_are_taken_as_they_are() {
        assert_eq!(texts("a, b ,,5\" pipe"), ["a", " b ", "", "5\" pipe"]);
        assert_eq!(texts("a,"), ["a", ""]);
        assert_eq!(texts(""), [""]);
    }

    #[test]
    fn quotes_hold_delimiters_line_ends_and_doubled_quotes() {
        assert_eq!(
            texts("\"a,b\",\"c\r\nd\", \"e \" ,\"\"\"f\"\"\",\"\",\"é\"\"\""),
            ["a,b", "c\r\nd", "e ", "\"f\"", "", "é\""]
        );
    }

    #[test]
    fn line_ends() {
        let ends = fields("a\nb\r\nc\r").expect("the text is well formed");
        let behind: Vec<Behind> = ends.iter().map(|(_, behind)| *behind).collect();
        assert_eq!(
            behind,
            [
                Behind::LineEnd { crlf: false },
                Behind::LineEnd { crlf: true },
                Behind::Nothing
            ]
        );
        assert_eq!(ends[2].0, "c");
    }

    #[test]
    fn what_is_broken_has_its_line() {
        let never = "a quote is opened and never closed";
        assert_eq!(fields("a\nb,\"c\nd\"\"\n"), Err((2, never)));
        assert_eq!(fields("\""), Err((1, never)));
        let behind = "text behind a closing quote";
        assert_eq!(fields("\"a\nb\" c"), Err((2, behind)));
        assert_eq!(fields("\"a\"\"\"b"), Err((1, behind)));
        let alone = "a carriage return without its line feed";
        assert_eq!(fields("a\n1\r2\r"), Err((2, alone)));
    }
}
