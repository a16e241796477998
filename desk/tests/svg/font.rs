//! Where the texts of a picture stand, in the font that they are made for.

use crate::xml::Element;

/// The widths of the characters from space to tilde in DejaVu Sans, in thousandths of its size.
const PLAIN: [u16; 95] = [
    318, 401, 460, 838, 636, 950, 780, 275, 390, 390, 500, 838, 318, 361, 318, 337, 636, 636, 636,
    636, 636, 636, 636, 636, 636, 636, 337, 337, 838, 838, 838, 531, 1000, 684, 686, 698, 770, 632,
    575, 775, 752, 295, 295, 656, 557, 863, 748, 787, 603, 787, 695, 635, 611, 732, 684, 989, 685,
    611, 685, 390, 337, 390, 838, 500, 500, 613, 635, 550, 635, 615, 352, 635, 634, 278, 278, 579,
    278, 974, 634, 612, 635, 635, 411, 521, 392, 634, 592, 818, 592, 592, 525, 636, 337, 636, 838,
];

/// The same of DejaVu Sans Bold.
const BOLD: [u16; 95] = [
    348, 456, 521, 838, 696, 1002, 872, 306, 457, 457, 523, 838, 380, 415, 380, 365, 696, 696, 696,
    696, 696, 696, 696, 696, 696, 696, 400, 400, 838, 838, 838, 580, 1000, 774, 762, 734, 830, 683,
    683, 821, 837, 372, 372, 775, 637, 995, 837, 850, 733, 850, 770, 720, 682, 812, 774, 1103, 771,
    724, 725, 457, 365, 457, 838, 500, 500, 675, 716, 593, 716, 678, 435, 716, 712, 343, 343, 665,
    343, 1042, 712, 687, 716, 716, 493, 595, 478, 712, 652, 924, 645, 652, 582, 712, 365, 712, 838,
];

pub struct Words<'a> {
    pub text: &'a str,
    left: f64,
    right: f64,
    top: f64,
    bottom: f64,
}

fn words<'a>(text: &'a Element, ordinary: f64) -> Words<'a> {
    let size = text.number("font-size").unwrap_or(ordinary);
    let table = if text.get("font-weight") == Some("bold") {
        &BOLD
    } else {
        &PLAIN
    };
    let advance = |sign: char| match sign {
        ' '..='~' => f64::from(table[sign as usize - 32]) / 1000.0,
        _ => 1.0,
    };
    let width = text.text.chars().map(advance).sum::<f64>() * size;
    let (x, y) = (text.number("x").unwrap(), text.number("y").unwrap());
    let left = match text.get("text-anchor") {
        None => x,
        Some("middle") => x - width / 2.0,
        Some("end") => x - width,
        Some(other) => panic!("{other}"),
    };
    Words {
        text: &text.text,
        left,
        right: left + width,
        top: y - 0.76 * size,
        bottom: y + 0.24 * size,
    }
}

/// The texts of a picture; all are checked to stand on the page, and none on another.
pub fn texts(picture: &Element) -> Vec<Words<'_>> {
    let ordinary = picture.number("font-size").unwrap();
    let page = (
        picture.number("width").unwrap(),
        picture.number("height").unwrap(),
    );
    let texts: Vec<Words> = picture
        .all("text")
        .into_iter()
        .map(|text| words(text, ordinary))
        .collect();
    for (k, one) in texts.iter().enumerate() {
        assert!(
            one.left >= 0.0 && one.right <= page.0,
            "{} in {page:?}",
            one.text
        );
        assert!(
            one.top >= 0.0 && one.bottom <= page.1,
            "{} in {page:?}",
            one.text
        );
        for other in &texts[..k] {
            let beside = one.right <= other.left || other.right <= one.left;
            let apart = one.bottom <= other.top || other.bottom <= one.top;
            assert!(beside || apart, "{} and {}", one.text, other.text);
        }
    }
    texts
}
