//! Mends what an editor or a transfer does to a sheet, and nothing else. It judges nothing.

use super::locate::{lines, without_end};

/// What UTF-8 text begins with where an editor marks it.
pub const BYTE_ORDER_MARK: &[u8] = b"\xEF\xBB\xBF";

pub struct Tidied {
    pub text: Vec<u8>,
    /// What was mended and where, such as "CR LF on 5 lines".
    pub mended: Vec<String>,
}

/// Mends CR LF, a byte order mark, lower case, spaces and tabs behind a line, and a missing last LF.
/// Lower case is mended where a line has digits alone: other text stays as it is.
pub fn tidy(sheet: &[u8]) -> Tidied {
    let mut marked = sheet;
    while let Some(behind) = marked.strip_prefix(BYTE_ORDER_MARK) {
        marked = behind;
    }
    let mut tidying = Tidying::default();
    for (before, line) in lines(marked).enumerate() {
        tidying.line(before + 1, line);
    }
    let mark = (marked.len() < sheet.len()).then(|| "a byte order mark".to_string());
    Tidied {
        mended: mark.into_iter().chain(tidying.mended()).collect(),
        text: tidying.text,
    }
}

#[derive(Default)]
struct Tidying {
    text: Vec<u8>,
    returns: Places,
    spaces: Places,
    cases: Places,
    unended: bool,
}

impl Tidying {
    fn line(&mut self, number: usize, line: &[u8]) {
        let is_space = |c: &u8| b" \t\r".contains(c);
        let body = without_end(line);
        let end = body.iter().rposition(|c| !is_space(c));
        let (kept, cut) = body.split_at(end.map_or(0, |last| last + 1));
        self.returns.note(number, cut.ends_with(b"\r"));
        self.spaces.note(number, cut.iter().any(|&c| c != b'\r'));
        let from = self.text.len();
        self.text.extend_from_slice(kept);
        if kept.iter().all(u8::is_ascii_hexdigit) {
            self.text[from..].make_ascii_uppercase();
            self.cases.note(number, self.text[from..] != *kept);
        }
        // Where nothing is left of a last line that lacks its LF, there is no line to end.
        self.unended = !line.ends_with(b"\n") && !kept.is_empty();
        if line.ends_with(b"\n") || self.unended {
            self.text.push(b'\n');
        }
    }

    fn mended(&self) -> impl Iterator<Item = String> {
        let end = self.unended.then(|| "a missing last LF".to_string());
        let found = [
            self.returns.words("CR LF"),
            self.spaces.words("trailing spaces"),
            self.cases.words("lower case"),
            end,
        ];
        found.into_iter().flatten()
    }
}

/// On how many lines something was mended, and the first of them.
#[derive(Default)]
struct Places {
    lines: usize,
    first: usize,
}

impl Places {
    fn note(&mut self, line: usize, found: bool) {
        if found && self.lines == 0 {
            self.first = line;
        }
        self.lines += found as usize;
    }

    fn words(&self, what: &str) -> Option<String> {
        match self.lines {
            0 => None,
            1 => Some(format!("{what} on line {}", self.first)),
            lines => Some(format!("{what} on {lines} lines")),
        }
    }
}

#[cfg(test)]
mod tests {
    use super::*;

    fn tidied(sheet: &[u8]) -> (Vec<u8>, Vec<String>) {
        let Tidied { text, mended } = tidy(sheet);
        (text, mended)
    }

    #[test]
    fn each_mend_is_named() {
        let all = b"\xEF\xBB\xBF0101\r\n02ffff0000 \t\r\n02ab\r\n0400";
        let mended = [
            "a byte order mark",
            "CR LF on 3 lines",
            "trailing spaces on line 2",
            "lower case on 2 lines",
            "a missing last LF",
        ];
        assert_eq!(
            tidied(all),
            (
                b"0101\n02FFFF0000\n02AB\n0400\n".to_vec(),
                mended.map(str::to_string).to_vec()
            )
        );
    }

    #[test]
    fn every_mark_before_the_first_line_goes() {
        let mended = vec!["a byte order mark".to_string()];
        let marked = b"\xEF\xBB\xBF\xEF\xBB\xBF0400\n";
        assert_eq!(tidied(marked), (b"0400\n".to_vec(), mended));
        let later = b"0400\n\xEF\xBB\xBF0400\n";
        assert_eq!(tidied(later), (later.to_vec(), vec![]));
    }

    #[test]
    fn nothing_else_is_changed() {
        for sheet in [&b""[..], b"0400\n", b"\n\n", b"# note: abc\n", b"0\xFFa\n"] {
            assert_eq!(tidied(sheet), (sheet.to_vec(), vec![]));
        }
    }

    #[test]
    fn spaces_alone_behind_the_last_line_are_no_line() {
        let mended = vec!["trailing spaces on line 2".to_string()];
        assert_eq!(tidied(b"0400\n \t"), (b"0400\n".to_vec(), mended));
    }
}
