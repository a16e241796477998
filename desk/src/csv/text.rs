//! From the bytes of a file to its text: UTF-8, with or without a byte order mark.

use super::fault::Fault;

pub(super) const BYTE_ORDER_MARK: &str = "\u{feff}";

/// A place in the text has 32 bits, also where unquoted texts stand behind it, which are no longer than the text.
const LONGEST: usize = i32::MAX as usize;

/// The text without its byte order mark, and whether it had one.
pub(super) fn decode(mut bytes: Vec<u8>) -> Result<(String, bool), Fault> {
    if bytes.starts_with(&[0xFF, 0xFE]) || bytes.starts_with(&[0xFE, 0xFF]) {
        return Err(Fault::of_file("UTF-16 text; save it as CSV in UTF-8"));
    }
    if bytes.len() > LONGEST {
        return Err(Fault::of_file("the file is longer than 2 GiB"));
    }
    let marked = bytes.starts_with(BYTE_ORDER_MARK.as_bytes());
    if marked {
        bytes.drain(..BYTE_ORDER_MARK.len());
    }
    if let Some(place) = bytes.iter().position(|&byte| byte == 0) {
        let text = "a zero byte, as in UTF-16 text; save it as CSV in UTF-8";
        return Err(Fault::of_line(line_of(&bytes, place), text));
    }
    match String::from_utf8(bytes) {
        Ok(text) => Ok((text, marked)),
        Err(error) => Err(not_utf8(error.as_bytes(), error.utf8_error().valid_up_to())),
    }
}

fn not_utf8(bytes: &[u8], place: usize) -> Fault {
    let text = format!(
        "byte {:02X} is not UTF-8; save the file as CSV in UTF-8",
        bytes[place]
    );
    Fault::of_line(line_of(bytes, place), text)
}

fn line_of(bytes: &[u8], place: usize) -> usize {
    1 + bytes[..place].iter().filter(|&&byte| byte == b'\n').count()
}

#[cfg(test)]
mod tests {
    use super::*;

    fn fault(bytes: &[u8]) -> String {
        decode(bytes.to_vec()).unwrap_err().to_string()
    }

    #[test]
    fn one_byte_order_mark_is_taken_off() {
        let marked = "\u{feff}\u{feff}1".as_bytes().to_vec();
        assert_eq!(decode(marked), Ok(("\u{feff}1".to_string(), true)));
        assert_eq!(decode(b"1".to_vec()), Ok(("1".to_string(), false)));
    }

    #[test]
    fn other_encodings_are_faults() {
        let utf16 = "1: UTF-16 text; save it as CSV in UTF-8";
        assert_eq!(fault(b"\xFF\xFE1\x00"), utf16);
        assert_eq!(fault(b"\xFE\xFF\x001"), utf16);
        assert_eq!(
            fault(b"1\n2\x00"),
            "2: a zero byte, as in UTF-16 text; save it as CSV in UTF-8"
        );
        assert_eq!(
            fault(b"1\n2\n\xE9t\xE9"),
            "3: byte E9 is not UTF-8; save the file as CSV in UTF-8"
        );
        assert_eq!(
            fault(b"1\xE2\x82"),
            "1: byte E2 is not UTF-8; save the file as CSV in UTF-8"
        );
    }
}
