use crate::{any, ascii, font, picture};
use compare::dice::Dice;
use desk::svg::{chain, ChainPicture};

/// An offset of some dimensions with entries of any size.
fn offset(dice: &mut Dice, dimensions: usize) -> String {
    let most = dice.pick(&[1, 20, 32_767]);
    let entries: Vec<String> = (0..dimensions)
        .map(|_| dice.between(-most - 1, most).to_string())
        .collect();
    format!("({})", entries.join(","))
}

#[test]
fn chains_of_every_length_show_all_they_have() {
    let mut dice = Dice::new(3204);
    for round in 0..640 {
        let filters = 1 + round % 32;
        let dimensions = 1 + dice.below(4);
        let offsets: Vec<String> = (0..filters)
            .map(|_| offset(&mut dice, dimensions))
            .collect();
        let most = dice.pick(&[5, 16_384, u32::MAX]);
        let places: Vec<u32> = (1..filters).map(|_| dice.word() % most).collect();
        let needs: Vec<u32> = places
            .iter()
            .map(|places| match dice.below(4) {
                0 => places.saturating_add(1 + dice.word() % 3),
                1 => places.saturating_sub(1 + dice.word() % 3),
                _ => *places,
            })
            .collect();
        let known = dice.one_in(2);
        let (title, note) = (ascii(&mut dice, 200), ascii(&mut dice, 200));
        let document = chain(&ChainPicture {
            title: &title,
            offsets: &offsets,
            places: &places,
            needs: known.then_some(&needs[..]),
            note: &note,
            kernel: "blend 0.5, 0.125",
            bad: dice.one_in(2),
            rising: None,
        });
        let root = picture(&document);
        let texts = font::texts(&root);
        // A wide letter takes 11 at most, and texts may widen the page to 1100.
        let whole = texts.iter().any(|words| words.text == note);
        assert!(whole || note.is_empty() || note.len() > 98, "{note}");
        let count = |text: &str| texts.iter().filter(|words| words.text == text).count();
        for (k, offset) in offsets.iter().enumerate() {
            assert_eq!((count(&format!("S{k}")), count(&format!("F{k}"))), (1, 1));
            assert!(count(offset) > 0, "{offset}");
        }
        for (k, places) in places.iter().enumerate() {
            assert_eq!(count(&format!("FIFO {k}")), 1);
            assert!(count(&places.to_string()) > 0);
        }
        let pairs = || places.iter().zip(&needs).filter(|_| known);
        let short = pairs().filter(|(places, needs)| places < needs).count();
        let larger = pairs().filter(|(places, needs)| places > needs).count();
        let boxes = root.all("rect");
        let lined = |colour| {
            boxes
                .iter()
                .filter(|area| area.get("stroke") == Some(colour))
                .count()
        };
        assert_eq!((lined("#c00"), lined("#960")), (short, larger));
        assert_eq!(count("red: too few places"), short.min(1));
        assert_eq!(count("amber: more places than needed"), larger.min(1));
        for (_, needs) in pairs().filter(|(places, needs)| places != needs) {
            assert!(count(&format!("needs {needs}")) > 0);
        }
    }
}

#[test]
fn a_rising_pair_is_red() {
    let offsets: Vec<String> = (0..20).map(|k| format!("({k})")).collect();
    for rising in 0..19 {
        let document = chain(&ChainPicture {
            title: "rising",
            offsets: &offsets,
            places: &[1; 19],
            needs: None,
            note: "stalls",
            kernel: "raw",
            bad: true,
            rising: Some(rising),
        });
        let root = picture(&document);
        font::texts(&root);
        let red: Vec<&str> = root
            .all("text")
            .into_iter()
            .filter(|text| text.get("fill") == Some("#c00"))
            .map(|text| &text.text[..])
            .collect();
        let expected = [
            &format!("F{rising}"),
            &format!("({rising})"),
            &format!("F{}", rising + 1),
            &format!("({})", rising + 1),
            "rising order",
            "stalls",
        ];
        assert_eq!(red, expected);
    }
}

#[test]
fn chains_of_any_texts_and_lengths() {
    let mut dice = Dice::new(3205);
    for _ in 0..2000 {
        let offsets: Vec<String> = (0..dice.below(40)).map(|_| any(&mut dice, 40)).collect();
        let places: Vec<u32> = (0..dice.below(40)).map(|_| dice.word()).collect();
        let needs: Vec<u32> = (0..dice.below(40)).map(|_| dice.word()).collect();
        let document = chain(&ChainPicture {
            title: &any(&mut dice, 300),
            offsets: &offsets,
            places: &places,
            needs: dice.one_in(2).then_some(&needs[..]),
            note: &any(&mut dice, 300),
            kernel: &any(&mut dice, 300),
            bad: dice.one_in(2),
            rising: dice.pick(&[None, Some(0), Some(38), Some(usize::MAX)]),
        });
        picture(&document);
    }
}

/// Eight filters stand in a row: the arrow from FIFO 7 goes down to the second row and ends at the circle of splitter 8,
/// which has its middle at (126, 286) and radius 13.
#[test]
fn a_ninth_filter_stands_in_the_next_row() {
    let offsets: Vec<String> = (0..9).rev().map(|entry| format!("({entry})")).collect();
    let document = chain(&ChainPicture {
        title: "",
        offsets: &offsets,
        places: &[1; 8],
        needs: None,
        note: "",
        kernel: "raw",
        bad: false,
        rising: None,
    });
    assert!(document.contains("<circle cx=\"126\" cy=\"286\" r=\"13\""));
    assert_eq!(document.matches("V286H113\"").count(), 1);
}
