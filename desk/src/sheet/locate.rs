//! Which line turned a sheet back, asked of the library. A beginning of whole lines is good exactly if
//! what follows it decides: an empty line behind it is answered by 1 and a cell by 2. Behind a bad line
//! both are answered by that line's number.

use super::Kind;

/// A good beginning has at most 67 lines: grid, 32 offsets, box, 31 capacities, order and kernel.
const MOST_LINES: usize = 68;

/// The first line that is turned back, counted from 1; none where every line is good. Lines are asked
/// about from the top: those before the bad one are short, and no longer beginning is copied.
pub fn bad_line(sheet: &[u8], kind: Kind) -> Option<usize> {
    let mut end = 0;
    let bad = |line: &[u8]| {
        end += line.len();
        !line.ends_with(b"\n") || !good(&sheet[..end], kind)
    };
    let before = lines(sheet).take(MOST_LINES).position(bad);
    before.map(|before| before + 1)
}

/// Whether every line of a beginning of whole lines is good.
pub fn good(beginning: &[u8], kind: Kind) -> bool {
    let answer = |line: &[u8]| kind.judge(&[beginning, line].concat());
    answer(b"\n") != answer(b"0500000000\n")
}

/// The lines of a sheet, each with its LF; the last may lack it.
pub fn lines(sheet: &[u8]) -> impl Iterator<Item = &[u8]> {
    sheet.split_inclusive(|&c| c == b'\n')
}

/// The number of the first line of a kind, which is its two digits.
pub fn line_of(sheet: &[u8], kind: &str) -> Option<usize> {
    let before = lines(sheet).position(|line| line.starts_with(kind.as_bytes()));
    before.map(|before| before + 1)
}

/// The sheet without its lines of some kinds, each by its two digits.
pub fn without(sheet: &[u8], kinds: &[&str]) -> Vec<u8> {
    let kept = |line: &&[u8]| !kinds.iter().any(|kind| line.starts_with(kind.as_bytes()));
    lines(sheet).filter(kept).flatten().copied().collect()
}

/// A line without its LF.
pub fn without_end(line: &[u8]) -> &[u8] {
    line.strip_suffix(b"\n").unwrap_or(line)
}

#[cfg(test)]
mod tests {
    use super::*;

    /// The longest chain sheet: 67 lines.
    fn longest() -> Vec<u8> {
        let mut sheet = b"010100000064\n".to_vec();
        let offsets = (0..32).rev().map(|entry| format!("02{entry:04X}\n"));
        sheet.extend(offsets.collect::<String>().bytes());
        sheet.extend(b"080000000000000001\n");
        sheet.extend(b"0300000001\n".repeat(31));
        let filters: String = (0..32).map(|filter| format!("{filter:02X}")).collect();
        sheet.extend(format!("06{filters}\n0400\n").bytes());
        sheet
    }

    #[test]
    fn a_bad_line_is_among_the_first_68() {
        let mut sheet = longest();
        assert_eq!(lines(&sheet).count(), 67);
        assert_eq!(Kind::Chain.judge(&sheet), Ok(()));
        assert_eq!(bad_line(&sheet, Kind::Chain), None);
        sheet.extend(b"0400\n");
        assert_eq!(bad_line(&sheet, Kind::Chain), Some(68));
        sheet.extend(b"\n\n\n0");
        assert_eq!(bad_line(&sheet, Kind::Chain), Some(68));
        sheet.insert(12, b'0');
        assert_eq!(bad_line(&sheet, Kind::Chain), Some(1));
    }

    #[test]
    fn a_last_line_without_its_end_is_bad_behind_good_ones() {
        let mut sheet = longest();
        sheet.pop();
        assert_eq!(bad_line(&sheet, Kind::Chain), Some(67));
        assert_eq!(bad_line(b"0", Kind::Chain), Some(1));
        assert_eq!(bad_line(b"", Kind::Chain), None);
    }
}
