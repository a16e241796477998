//! Base64 of RFC 4648, with padding.

const SIGNS: &[u8; 64] = b"ABCDEFGHIJKLMNOPQRSTUVWXYZabcdefghijklmnopqrstuvwxyz0123456789+/";

pub fn base64(bytes: &[u8]) -> String {
    let mut text = String::with_capacity(bytes.len().div_ceil(3) * 4);
    for group in bytes.chunks(3) {
        let byte = |k: usize| u32::from(group.get(k).copied().unwrap_or(0));
        let bits = byte(0) << 16 | byte(1) << 8 | byte(2);
        for k in 0..4 {
            let sign = SIGNS[(bits >> (18 - 6 * k) & 63) as usize];
            text.push(if k <= group.len() { sign as char } else { '=' });
        }
    }
    text
}

#[cfg(test)]
mod tests {
    use super::*;
    use compare::dice::Dice;

    #[test]
    fn known_vectors() {
        let known = [
            ("", ""),
            ("f", "Zg=="),
            ("fo", "Zm8="),
            ("foo", "Zm9v"),
            ("foob", "Zm9vYg=="),
            ("fooba", "Zm9vYmE="),
            ("foobar", "Zm9vYmFy"),
        ];
        for (bytes, text) in known {
            assert_eq!(base64(bytes.as_bytes()), text);
        }
        assert_eq!(base64(&[0xFB, 0xEF, 0xFF]), "++//");
    }

    /// Bit by bit: six at a time, the last ones filled up with zeros.
    fn slow(bytes: &[u8]) -> String {
        let bits: Vec<bool> = bytes
            .iter()
            .flat_map(|byte| (0..8).map(move |k| byte >> (7 - k) & 1 == 1))
            .collect();
        let sign = |six: &[bool]| {
            let value = (0..6).fold(0, |sum, k| 2 * sum + u8::from(six.get(k) == Some(&true)));
            match value {
                0..=25 => (b'A' + value) as char,
                26..=51 => (b'a' + value - 26) as char,
                52..=61 => (b'0' + value - 52) as char,
                62 => '+',
                _ => '/',
            }
        };
        let mut text: String = bits.chunks(6).map(sign).collect();
        while !text.len().is_multiple_of(4) {
            text.push('=');
        }
        text
    }

    #[test]
    fn beside_a_slow_one() {
        let mut dice = Dice::new(64);
        for _ in 0..2000 {
            let count = dice.below(70);
            let bytes: Vec<u8> = (0..count).map(|_| dice.roll() as u8).collect();
            assert_eq!(base64(&bytes), slow(&bytes));
        }
    }
}
