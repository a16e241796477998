//! Texts in a picture: escaped for XML, measured, cut to their room.

/// The text as content or attribute of an element. White space becomes a space; other control
/// characters, and those that XML 1.0 does not allow, become U+FFFD.
pub fn escape(text: &str) -> String {
    let mut escaped = String::with_capacity(text.len());
    for sign in text.chars() {
        match sign {
            '&' => escaped.push_str("&amp;"),
            '<' => escaped.push_str("&lt;"),
            '>' => escaped.push_str("&gt;"),
            '"' => escaped.push_str("&quot;"),
            '\t' | '\n' | '\r' => escaped.push(' '),
            _ if sign.is_control() || is_no_character(sign) => escaped.push('\u{FFFD}'),
            _ => escaped.push(sign),
        }
    }
    escaped
}

/// The last two numbers of each Unicode plane stand for no character.
fn is_no_character(sign: char) -> bool {
    sign as u32 & 0xFFFE == 0xFFFE
}

/// About the width of a text in a font of this size. No ASCII text is wider in DejaVu Sans, which is
/// wider than most fonts.
pub fn width(text: &str, size: f64) -> f64 {
    text.chars().map(advance).sum::<f64>() * size
}

fn advance(sign: char) -> f64 {
    match sign {
        ' ' | '!' | '\'' | '(' | ')' | ',' | '-' | '.' | '/' | ':' | ';' | '[' | '\\' | ']' => 0.41,
        'I' | 'J' | 'f' | 'i' | 'j' | 'l' | 'r' | 't' | '|' => 0.44,
        '#' | '%' | '&' | '+' | '<' | '=' | '>' | '@' | 'M' | 'W' | '^' | 'm' | 'w' | '~' => 1.0,
        'A'..='Z' => 0.79,
        ' '..='~' => 0.64,
        _ => 1.0,
    }
}

/// The text, or as much of its beginning as has room, followed by an ellipsis.
pub fn cut(text: &str, size: f64, room: f64) -> String {
    const ELLIPSIS: char = '…';
    // A text whose room was made for it is not cut by rounding.
    let room = room + 0.01;
    let kept_room = room - advance(ELLIPSIS) * size;
    let (mut used, mut kept) = (0.0, 0);
    for (start, sign) in text.char_indices() {
        used += advance(sign) * size;
        if used > room {
            let mut beginning = text[..kept].to_string();
            if kept_room >= 0.0 {
                beginning.push(ELLIPSIS);
            }
            return beginning;
        }
        if used <= kept_room {
            kept = start + sign.len_utf8();
        }
    }
    text.to_string()
}

#[cfg(test)]
mod tests {
    use super::*;

    #[test]
    fn escaped() {
        assert_eq!(escape("a<b & \"c\">d'"), "a&lt;b &amp; &quot;c&quot;&gt;d'");
        assert_eq!(escape("1\t2\r\n3"), "1 2  3");
        assert_eq!(
            escape("\0\u{1B}\u{7F}\u{85}\u{FFFE}\u{FFFF}\u{1FFFE}"),
            "\u{FFFD}".repeat(7)
        );
        assert_eq!(escape("°C äλ車😀"), "°C äλ車😀");
    }

    #[test]
    fn cut_to_the_room() {
        // A digit is 0.64 wide and the ellipsis 1.0: ten digits take 64, six and the ellipsis 48.4.
        assert_eq!(cut("0123456789", 10.0, 64.1), "0123456789");
        assert_eq!(cut("0123456789", 10.0, 49.0), "012345…");
        assert_eq!(cut("車車車", 10.0, 25.0), "車…");
        assert_eq!(cut("12", 10.0, 9.0), "");
        assert_eq!(cut("", 10.0, 0.0), "");
        assert_eq!(cut("12", 10.0, f64::NAN), "12");
    }
}
