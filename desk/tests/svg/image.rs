use crate::heat::scale;
use crate::{ascii, font, picture};
use compare::dice::Dice;
use desk::svg::{heat, Cell, Heat, Panel, Scale};

#[test]
fn sizes_of_every_kind_have_their_texts_in_place() {
    let mut dice = Dice::new(3202);
    let sizes = [0, 1, 2, 3, 7, 16, 40, 100, 101, 512, 1024, 2049, 5119];
    for height in sizes {
        for width in sizes {
            let [title, most] = [120, 14].map(|most| ascii(&mut dice, most));
            let names = |count: usize| (0..count).map(|k| if k % 9 == 0 { &most[..] } else { "7" });
            let cell = move |i: usize, j: usize| {
                assert!(i < height && j < width);
                if i == j {
                    Cell::Rim
                } else {
                    Cell::Value(f32::NAN)
                }
            };
            let panel = |title| Panel {
                title,
                scale: scale(&mut Dice::new(7)),
                cell: Box::new(cell),
            };
            let document = heat(&Heat {
                title: &title,
                height,
                width,
                top: dice.one_in(2).then(|| names(width).collect()),
                left: dice.one_in(2).then(|| names(height).collect()),
                panels: vec![panel("before"), panel("change")],
            });
            let root = picture(&document);
            font::texts(&root);
            let images = if height * width > 10_000 { 2 } else { 0 };
            assert_eq!(root.all("image").len(), images);
            let cells = if images == 0 { 2 * height * width } else { 0 };
            assert_eq!(root.all("title").len(), cells);
        }
    }
}

/// The bytes that a base64 text stands for.
fn bytes(text: &str) -> Vec<u8> {
    let value = |sign: u8| match sign {
        b'A'..=b'Z' => sign - b'A',
        b'a'..=b'z' => sign - b'a' + 26,
        b'0'..=b'9' => sign - b'0' + 52,
        b'+' => 62,
        b'/' => 63,
        _ => 0,
    };
    let group = |four: &[u8]| {
        let bits = four
            .iter()
            .fold(0, |sum, sign| sum << 6 | u32::from(value(*sign)));
        bits.to_be_bytes()[1..].to_vec()
    };
    text.as_bytes().chunks(4).flat_map(group).collect()
}

#[test]
fn a_large_map_is_an_image() {
    // Rows of 120 cells: the values 0 to 119, the first of them rim, then outside, then two odd ones.
    let cell = |_: usize, j: usize| match j {
        0 => Cell::Rim,
        1 => Cell::Outside,
        2 => Cell::Value(f32::NAN),
        3 => Cell::Value(f32::NEG_INFINITY),
        _ => Cell::Value(j as f32),
    };
    let document = heat(&Heat {
        title: "large",
        height: 90,
        width: 120,
        top: None,
        left: None,
        panels: vec![Panel {
            title: "before",
            scale: Scale::Values {
                low: 4.0,
                high: 119.0,
            },
            cell: Box::new(cell),
        }],
    });
    let root = picture(&document);
    let image = root.child("image").unwrap().get("xlink:href").unwrap();
    let file = bytes(image.strip_prefix("data:image/png;base64,").unwrap());
    // A cell has 3 by 3 pixels: the plot's side is at most 400.
    assert_eq!(file[16..24], [0, 0, 1, 104, 0, 0, 1, 14]);
    // Signature 8, header 25, length and kind of the palette 8; behind its 768 bytes a sum and the
    // length and kind of the data, then two bytes of zlib and five before each block.
    let palette = &file[41..41 + 768];
    let data = &file[41 + 768 + 12 + 2..];
    let rows = [&data[5..][..65_535], &data[65_545..][..270 * 361 - 65_535]].concat();
    for row in rows.chunks(361) {
        assert!(row[1..].chunks(3).all(|cell| cell == [cell[0]; 3]));
        let cells: Vec<u8> = row[1..].iter().copied().step_by(3).collect();
        let colour = |j: usize| &palette[3 * usize::from(cells[j])..][..3];
        assert_eq!(colour(0), [190, 190, 190]);
        assert_eq!(colour(1), [255, 255, 255]);
        assert_eq!(colour(2), [255, 0, 255]);
        assert_eq!(colour(3), [255, 0, 255]);
        assert_eq!(colour(4), [68, 1, 84]);
        assert_eq!(colour(119), [253, 231, 37]);
        // Up the scale always another colour, and never less green.
        assert!((5..120).all(|j| cells[j - 1] < cells[j]));
        assert!((5..120).all(|j| colour(j - 1)[1] <= colour(j)[1]));
    }
    let texts = font::texts(&root);
    assert!(texts
        .iter()
        .any(|words| words.text == "grey: rim, no firing"));
}

#[test]
fn files_are_not_too_large() {
    let panel = |title| {
        let cell = |i: usize, j: usize| Cell::Value((i * 64 + j) as f32 * 0.123_456_7);
        let scale = Scale::Values {
            low: 0.0,
            high: 400.0,
        };
        Panel {
            title,
            scale,
            cell: Box::new(cell),
        }
    };
    let size = |height: usize, width: usize| {
        let names: Vec<String> = (0..1024).map(|k| (600 + 50 * k).to_string()).collect();
        let names = |count: usize| names[..count].iter().map(String::as_str).collect();
        let document = heat(&Heat {
            title: "a map",
            height,
            width,
            top: Some(names(width)),
            left: Some(names(height)),
            panels: vec![panel("before"), panel("after"), panel("change")],
        });
        document.len()
    };
    assert!(size(48, 64) < 1_000_000);
    assert!(size(1024, 1024) < 4_300_000);
}

#[test]
fn of_more_rows_than_an_image_holds_some_are_shown() {
    for (height, said) in [
        (2048, vec![]),
        (2049, vec!["of 2 rows one is shown"]),
        (4096, vec!["of 2 rows one is shown"]),
        (4097, vec!["of 3 rows one is shown"]),
    ] {
        let panel = Panel {
            title: "",
            scale: Scale::Change { most: 1.0 },
            cell: Box::new(|_, _| Cell::Value(1.0)),
        };
        let document = heat(&Heat {
            title: "",
            height,
            width: 5,
            top: None,
            left: None,
            panels: vec![panel],
        });
        let root = picture(&document);
        let texts = font::texts(&root);
        let words = texts.iter().map(|words| words.text);
        let shown: Vec<&str> = words.filter(|text| text.contains("one is shown")).collect();
        assert_eq!(shown, said, "{height}");
    }
}

#[test]
fn sizes_without_measure() {
    for (height, width) in [
        (0, usize::MAX),
        (usize::MAX, 0),
        (usize::MAX, 1),
        (usize::MAX, usize::MAX),
    ] {
        let cell = |_: usize, _: usize| Cell::Value(1.0);
        let scale = Scale::Change { most: 1.0 };
        let panel = Panel {
            title: "",
            scale,
            cell: Box::new(cell),
        };
        let document = heat(&Heat {
            title: "",
            height,
            width,
            top: None,
            left: None,
            panels: vec![panel],
        });
        font::texts(&picture(&document));
    }
}
