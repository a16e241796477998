//! CSV on random input: maps in every dialect word for word, any bytes without a panic.

mod draft;

use compare::dice::Dice;
use desk::csv::{read, Asked, Axes, Cells, Dialect, Form, Map, Rim, Row};
use draft::{draft, text_of, Draft};

fn expect(map: &Map, draft: &Draft, text: &str) {
    assert_eq!(map.cells(), draft.words, "{text:?}");
    assert_eq!(map.rows(), draft.rows, "{text:?}");
    let trimmed = |labels: &[String]| -> Vec<String> {
        labels
            .iter()
            .map(|label| label.trim().to_string())
            .collect()
    };
    let owned = |labels: Option<Vec<&str>>| -> Option<Vec<String>> {
        labels.map(|labels| labels.into_iter().map(String::from).collect())
    };
    let has_top = matches!(draft.axes, Axes::Both | Axes::Top);
    let has_left = matches!(draft.axes, Axes::Both | Axes::Left);
    assert_eq!(
        owned(map.left()),
        has_left.then(|| trimmed(&draft.left)),
        "{text:?}"
    );
    let top = owned(map.top());
    let expected = has_top.then(|| trimmed(&draft.top));
    assert_eq!(top, expected, "{text:?}");
}

/// The map written with its own words.
fn again(map: &Map) -> Vec<u8> {
    map.write(&Form::default(), |row, column| map.word(row, column))
}

fn good(bytes: &[u8], asked: &Asked) -> Map {
    match read(bytes.to_vec(), asked) {
        Ok(map) => map,
        Err(fault) => panic!("{fault} in {:?}", String::from_utf8_lossy(bytes)),
    }
}

/// Reads a draft's text, writes it, reads it again.
fn there_and_back(draft: &Draft, text: &str, asked: &Asked) {
    let map = good(text.as_bytes(), asked);
    expect(&map, draft, text);
    let written = again(&map);
    let bare = match written.strip_prefix("\u{feff}".as_bytes()) {
        Some(bare) if draft.dialect.bom => bare,
        _ => &written,
    };
    assert!(
        draft.dialect.bom == (bare.len() < written.len()),
        "{text:?}"
    );
    assert!(bare.ends_with(if draft.dialect.crlf { b"\r\n" } else { b"\n" }));
    let second = good(&written, asked);
    expect(&second, draft, text);
    assert_eq!(again(&second), written, "{text:?}");
}

/// How to read a draft's text.
fn fitting(draft: &Draft) -> Asked {
    Asked {
        delimiter: Some(draft.dialect.delimiter),
        decimal: Some(draft.dialect.decimal),
        axes: Some(draft.axes),
        slanted: draft.slanted,
        fill: None,
        cells: draft.kind,
    }
}

#[test]
fn maps_in_every_dialect_word_for_word() {
    let mut dice = Dice::new(32);
    for _ in 0..60_000 {
        let draft = draft(&mut dice);
        let text = text_of(&mut dice, &draft);
        let asked = fitting(&draft);
        assert_eq!(good(text.as_bytes(), &asked).dialect(), &draft.dialect);
        there_and_back(&draft, &text, &asked);
    }
}

#[test]
fn dialect_and_axes_are_found() {
    let mut dice = Dice::new(33);
    for _ in 0..60_000 {
        let mut draft = draft(&mut dice);
        draft.axes = Axes::Both;
        draft.quoted.extend([',', ';', '\t']);
        draft.corner.insert(0, 'x');
        for label in &mut draft.left {
            label.insert(0, 'x');
        }
        draft.top = (0..draft.width)
            .map(|column| (600 + 50 * column).to_string())
            .collect();
        let text = text_of(&mut dice, &draft);
        let asked = Asked {
            slanted: draft.slanted,
            cells: draft.kind,
            ..Asked::default()
        };
        there_and_back(&draft, &text, &asked);
    }
}

#[test]
fn cells_laid_out_are_a_map_without_labels() {
    let mut dice = Dice::new(37);
    for _ in 0..20_000 {
        let draft = draft(&mut dice);
        let (rows, words) = (draft.rows.clone(), draft.words.clone());
        let map = Map::laid(rows, words, draft.dialect, draft.kind);
        let map = map.expect("any words can be laid out");
        assert_eq!(
            (map.cells(), map.rows()),
            (&draft.words[..], &draft.rows[..])
        );
        assert_eq!(
            (map.dialect(), map.top(), map.left()),
            (&draft.dialect, None, None)
        );
        let asked = Asked {
            axes: Some(Axes::None),
            slanted: map.is_slanted(),
            ..fitting(&draft)
        };
        let read = good(&again(&map), &asked);
        assert_eq!((read.cells(), read.rows()), (map.cells(), map.rows()));
        assert_eq!((read.width(), read.taken()), (map.width(), map.taken()));
    }
}

/// Words that no number in CSV has: their texts stand in the cells that no result takes the place of.
#[test]
fn cells_laid_out_may_be_no_numbers() {
    let row = |start, length| Row { start, length };
    let words = [f32::NAN, f32::INFINITY, -0.0].map(f32::to_bits);
    let map = Map::laid(
        vec![row(1, 1), row(0, 2)],
        words.to_vec(),
        Dialect::default(),
        Cells::F32,
    );
    let map = map.expect("any words can be laid out");
    let keep = Form {
        digits: None,
        rim: Rim::Keep,
    };
    let none = |_, _| None;
    assert_eq!(map.cells(), words);
    assert_eq!(map.write(&keep, none), b",nan\ninf,-0\n");
    assert_eq!(map.write(&Form::default(), none), b",\n,\n");
}

fn any_asked(dice: &mut Dice) -> Asked {
    Asked {
        delimiter: dice.pick(&[None, None, Some(b','), Some(b';'), Some(b'\t'), Some(b'x')]),
        decimal: dice.pick(&[None, None, Some(b'.'), Some(b','), Some(0)]),
        axes: dice.pick(&[
            None,
            None,
            Some(Axes::Both),
            Some(Axes::Top),
            Some(Axes::Left),
            Some(Axes::None),
        ]),
        slanted: dice.one_in(2),
        fill: dice.pick(&[None, Some(0)]),
        cells: dice.pick(&[Cells::F32, Cells::U32]),
    }
}

/// A map with some bytes put in, taken out, doubled or exchanged.
fn damaged(dice: &mut Dice, draft: &Draft) -> Vec<u8> {
    let mut bytes = text_of(dice, draft).into_bytes();
    for _ in 0..dice.below(4) {
        let place = dice.below(bytes.len() + 1);
        match dice.below(4) {
            0 => bytes.insert(place, dice.pick(b"\",;\t\n\r .5e-\0\xFF")),
            1 => bytes.truncate(place),
            2 if place < bytes.len() => drop(bytes.remove(place)),
            _ if place < bytes.len() => bytes[place] = dice.word() as u8,
            _ => bytes.extend_from_within(place / 2..),
        }
    }
    bytes
}

/// Pieces that have a meaning in CSV, in any order.
fn pieces(dice: &mut Dice) -> Vec<u8> {
    const PIECES: [&str; 20] = [
        ",", ",", ",", "\n", "\n", "\n", ";", "\t", "\r\n", "\r", "\"", "\"\"", " ", "1", "2.5",
        "3,5", "1e39", "x", "\u{feff}", "é",
    ];
    let length = dice.below(40);
    (0..length)
        .flat_map(|_| dice.pick(&PIECES).bytes())
        .collect()
}

/// Any bytes, and how to read them: often a map that is read as it was written.
fn any_input(dice: &mut Dice) -> (Vec<u8>, Asked) {
    let asked = any_asked(dice);
    match dice.below(5) {
        0 => (
            (0..dice.below(40)).map(|_| dice.word() as u8).collect(),
            asked,
        ),
        1 => (pieces(dice), asked),
        2 => {
            let draft = draft(dice);
            (damaged(dice, &draft), asked)
        }
        _ => {
            let draft = draft(dice);
            (damaged(dice, &draft), fitting(&draft))
        }
    }
}

/// What was taken of a map, asked for.
fn as_taken(map: &Map, asked: &Asked) -> Asked {
    let axes = match (map.top().is_some(), map.left().is_some()) {
        (true, true) => Axes::Both,
        (true, false) => Axes::Top,
        (false, true) => Axes::Left,
        (false, false) => Axes::None,
    };
    Asked {
        delimiter: Some(map.dialect().delimiter),
        decimal: Some(map.dialect().decimal),
        axes: Some(axes),
        fill: None,
        ..asked.clone()
    }
}

fn expect_sound(map: &Map, asked: &Asked) {
    assert_eq!(map.rows().len(), map.height());
    let count: usize = map.rows().iter().map(|row| row.length).sum();
    assert_eq!(map.cells().len(), count);
    let fits = |row: &Row| row.length > 0 && row.start + row.length <= map.width();
    assert!(map.rows().iter().all(fits));
    let again_asked = as_taken(map, asked);
    let second = good(&again(map), &again_asked);
    assert_eq!(second.cells(), map.cells());
    assert_eq!(second.rows(), map.rows());
    assert_eq!(second.top(), map.top());
    assert_eq!(second.left(), map.left());
    let keep = Form {
        digits: Some(3),
        rim: Rim::Keep,
    };
    map.write(&keep, |row, column| (row < column).then_some(0x7FC0_0000));
}

#[test]
fn any_bytes_without_a_panic() {
    let mut dice = Dice::new(34);
    let (mut taken, mut turned_back) = (0, 0);
    for _ in 0..300_000 {
        let (bytes, asked) = any_input(&mut dice);
        let lines = 1 + bytes.iter().filter(|&&byte| byte == b'\n').count();
        match read(bytes, &asked) {
            Ok(map) => {
                expect_sound(&map, &asked);
                taken += 1;
            }
            Err(fault) => {
                assert!((1..=lines).contains(&fault.line), "{fault}");
                assert!(
                    fault.field != Some(0) && !fault.to_string().contains('\n'),
                    "{fault}"
                );
                turned_back += 1;
            }
        }
    }
    assert!(
        taken > 20_000 && turned_back > 20_000,
        "{taken} {turned_back}"
    );
}
