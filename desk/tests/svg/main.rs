//! Pictures read back: well-formed, all that they show, every text in its place.

mod chain;
mod font;
mod heat;
mod image;
mod time;
mod xml;

use compare::dice::Dice;
use xml::Element;

/// The picture, which has to be SVG 1.1 without a script.
fn picture(document: &str) -> Element {
    let root = xml::read(document).unwrap_or_else(|fault| panic!("{fault}"));
    assert_eq!(root.name, "svg");
    assert_eq!(root.get("version"), Some("1.1"));
    assert_eq!(root.get("xmlns"), Some("http://www.w3.org/2000/svg"));
    assert_eq!(
        root.get("xmlns:xlink"),
        Some("http://www.w3.org/1999/xlink")
    );
    assert!(root.all("script").is_empty());
    root
}

/// A text of printable ASCII.
fn ascii(dice: &mut Dice, most: usize) -> String {
    let length = dice.below(most + 1);
    (0..length)
        .map(|_| dice.between(32, 126) as u8 as char)
        .collect()
}

/// A text of any characters.
fn any(dice: &mut Dice, most: usize) -> String {
    let length = dice.below(most + 1);
    let sign = |dice: &mut Dice| match dice.below(4) {
        0 => dice.pick(&['&', '<', '>', '"', '\'', ']', '\n', '\0']),
        1 => dice.below(0x20) as u8 as char,
        2 => dice.between(32, 126) as u8 as char,
        _ => char::from_u32(dice.below(0x11_0000) as u32).unwrap_or('\u{FFFF}'),
    };
    (0..length).map(|_| sign(dice)).collect()
}
