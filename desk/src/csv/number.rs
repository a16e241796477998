//! Numbers in fields.

use std::borrow::Cow;
use std::str::FromStr;

/// The number that a text says, rounded once into a float type; infinite where it is too large for it. A number is an
/// optional sign, digits with at most one decimal sign, and an optional exponent.
pub(crate) fn number<Float: FromStr>(text: &str, decimal: u8) -> Option<Float> {
    let with_point = if decimal == b'.' {
        Cow::Borrowed(text)
    } else if text.contains('.') {
        return None;
    } else {
        Cow::Owned(text.replace(char::from(decimal), "."))
    };
    // Of these characters Rust reads just such numbers: neither `inf` nor `nan` can be spelt.
    let plain = |byte: u8| byte.is_ascii_digit() || b"+-.eE".contains(&byte);
    if !with_point.bytes().all(plain) {
        return None;
    }
    with_point.parse().ok()
}

/// The word that a text of decimal digits says.
pub(super) fn whole(text: &str) -> Option<u32> {
    if !text.bytes().all(|byte| byte.is_ascii_digit()) {
        return None;
    }
    text.parse().ok()
}

#[cfg(test)]
mod tests {
    use super::*;

    #[test]
    fn numbers_with_a_point() {
        let expected = [
            ("0", 0.0),
            ("-12.5", -12.5),
            ("+3", 3.0),
            (".5", 0.5),
            ("7.", 7.0),
            ("1e3", 1000.0),
            ("25E-2", 0.25),
            ("16777217", 16777216.0),
            ("1e39", f32::INFINITY),
            ("-1e99999999999999999999", f32::NEG_INFINITY),
            ("1e-99999999999999999999", 0.0),
        ];
        for (text, value) in expected {
            assert_eq!(number(text, b'.'), Some(value), "{text}");
        }
        let zero: f32 = number("-0", b'.').expect("a number");
        assert_eq!(zero.to_bits(), 0x8000_0000);
    }

    #[test]
    fn a_decimal_between_two_floats_is_rounded_once() {
        // Just above the middle of 1 and the next f32: an f64 on the way would land on the middle, and then on 1.
        let text = "1.00000005960464477539062500000001";
        let value: f32 = number(text, b'.').expect("a number");
        assert_eq!(value.to_bits(), 0x3F80_0001);
    }

    #[test]
    fn numbers_with_a_comma() {
        assert_eq!(number("12,5", b','), Some(12.5f32));
        assert_eq!(number("-1,25e2", b','), Some(-125f32));
        assert_eq!(number("12", b','), Some(12f32));
        for text in ["12.5", "1.234,5", "1,234,5", ","] {
            assert_eq!(number::<f32>(text, b','), None, "{text}");
        }
    }

    #[test]
    fn nothing_else_is_a_number() {
        let texts = [
            "", ".", "-", "+", "e", "1e", "e1", "1e+", "--1", "1-", "1.2.3", "1 2", " 1", "1,2",
            "1.234,5", "inf", "-inf", "infinity", "nan", "NaN", "0x10", "1_000", "1'000", "1f",
            "½", "١", "1e1.5",
        ];
        for text in texts {
            assert_eq!(number::<f32>(text, b'.'), None, "{text}");
        }
    }

    #[test]
    fn whole_words() {
        assert_eq!(whole("0"), Some(0));
        assert_eq!(whole("0012"), Some(12));
        assert_eq!(whole("4294967295"), Some(u32::MAX));
        for text in ["", "4294967296", "-1", "+1", "1.0", "1e3", "1 "] {
            assert_eq!(whole(text), None, "{text}");
        }
    }
}
