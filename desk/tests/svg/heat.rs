use crate::{any, ascii, font, picture};
use compare::dice::Dice;
use desk::svg::{heat, Cell, Heat, Panel, Scale};

#[derive(Clone, Copy, Debug, PartialEq)]
enum Kind {
    Value(u32),
    Rim,
    Outside,
}

struct Map {
    height: usize,
    width: usize,
    cells: Vec<Kind>,
}

impl Map {
    fn random(dice: &mut Dice, height: usize, width: usize) -> Map {
        let odd = dice.pick(&[2, 20, 1_000_000]);
        let cell = |dice: &mut Dice| match dice.below(odd) {
            0 => Kind::Rim,
            1 => Kind::Outside,
            _ => Kind::Value(dice.float()),
        };
        let cells = (0..height * width).map(|_| cell(dice)).collect();
        Map {
            height,
            width,
            cells,
        }
    }

    fn panel<'a>(&'a self, title: &'a str, scale: Scale) -> Panel<'a> {
        let cell = |i: usize, j: usize| match self.cells[i * self.width + j] {
            Kind::Value(bits) => Cell::Value(f32::from_bits(bits)),
            Kind::Rim => Cell::Rim,
            Kind::Outside => Cell::Outside,
        };
        Panel {
            title,
            scale,
            cell: Box::new(cell),
        }
    }
}

pub fn scale(dice: &mut Dice) -> Scale {
    let [one, other] = [(); 2].map(|()| f32::from_bits(dice.float()));
    match dice.below(3) {
        0 => Scale::Change { most: one },
        1 => Scale::Values {
            low: one,
            high: other,
        },
        _ => Scale::Values {
            low: one.min(other),
            high: one.max(other),
        },
    }
}

/// Each cell that a picture draws, as it was.
fn read_back(document: &str, maps: &[Map], name: impl Fn(usize, usize) -> String) {
    let root = picture(document);
    let groups = root.all("g");
    let maps: Vec<&Map> = maps.iter().filter(|map| !map.cells.is_empty()).collect();
    assert_eq!(groups.len(), maps.len());
    for (group, map) in groups.into_iter().zip(maps) {
        let mut cells = vec![Kind::Outside; map.height * map.width];
        for path in &group.children {
            let place = path.get("d").unwrap().strip_prefix('M').unwrap();
            let (j, i) = place
                .strip_suffix("h1v1h-1z")
                .unwrap()
                .split_once(',')
                .unwrap();
            let (i, j): (usize, usize) = (i.parse().unwrap(), j.parse().unwrap());
            let title = &path.child("title").unwrap().text;
            let value = title
                .strip_prefix(&name(i, j))
                .unwrap_or_else(|| panic!("{title}"));
            let fill = path.get("fill").unwrap();
            let kind = match value {
                "rim" => Kind::Rim,
                "not a number" => Kind::Value(f32::NAN.to_bits()),
                "infinity" => Kind::Value(f32::INFINITY.to_bits()),
                "-infinity" => Kind::Value(f32::NEG_INFINITY.to_bits()),
                number => Kind::Value(number.parse::<f32>().unwrap().to_bits()),
            };
            assert_eq!(fill == "url(#rim)", kind == Kind::Rim);
            let odd = matches!(kind, Kind::Value(bits) if !f32::from_bits(bits).is_finite());
            assert_eq!(fill == "#ff00ff", odd);
            assert_eq!(
                std::mem::replace(&mut cells[i * map.width + j], kind),
                Kind::Outside
            );
        }
        let expected = map.cells.iter().map(|kind| match *kind {
            Kind::Value(bits) if f32::from_bits(bits).is_nan() => Kind::Value(f32::NAN.to_bits()),
            kind => kind,
        });
        assert!(cells.into_iter().eq(expected));
    }
}

#[test]
fn any_cells_are_read_back() {
    let mut dice = Dice::new(3201);
    for _ in 0..300 {
        let (height, width) = (dice.below(30), dice.below(30));
        let panels = dice.below(7);
        let maps: Vec<Map> = (0..panels)
            .map(|_| Map::random(&mut dice, height, width))
            .collect();
        let title = ascii(&mut dice, 150);
        let titles: Vec<String> = maps.iter().map(|_| ascii(&mut dice, 40)).collect();
        let named = |dice: &mut Dice, count: usize| -> Option<Vec<String>> {
            let most = dice.pick(&[4, 12]);
            dice.one_in(2)
                .then(|| (0..count).map(|_| ascii(dice, most)).collect())
        };
        let (top, left) = (named(&mut dice, width), named(&mut dice, height));
        let names = |of: &'_ Option<Vec<String>>, k: usize| match of {
            Some(names) => names[k].clone(),
            None => k.to_string(),
        };
        let document = heat(&Heat {
            title: &title,
            height,
            width,
            top: top
                .as_ref()
                .map(|names| names.iter().map(String::as_str).collect()),
            left: left
                .as_ref()
                .map(|names| names.iter().map(String::as_str).collect()),
            panels: maps
                .iter()
                .zip(&titles)
                .map(|(map, title)| map.panel(title, scale(&mut dice)))
                .collect(),
        });
        read_back(&document, &maps, |i, j| {
            format!("{} / {}: ", names(&left, i), names(&top, j))
        });
        font::texts(&picture(&document));
    }
}

#[test]
fn texts_of_any_characters() {
    let mut dice = Dice::new(3203);
    for _ in 0..2000 {
        let texts: Vec<String> = (0..8).map(|_| any(&mut dice, 60)).collect();
        let map = Map::random(&mut dice, 2, 2);
        let document = heat(&Heat {
            title: &texts[0],
            height: 2,
            width: 2,
            top: Some(vec![&texts[1], &texts[2]]),
            left: Some(vec![&texts[3]]),
            panels: vec![
                map.panel(&texts[4], scale(&mut dice)),
                map.panel(&texts[5], scale(&mut dice)),
            ],
        });
        picture(&document);
    }
}

#[test]
fn every_character_as_a_title() {
    let mut signs = (0..0x11_0000).filter_map(char::from_u32).peekable();
    while signs.peek().is_some() {
        let title: String = signs.by_ref().take(24).collect();
        let document = heat(&Heat {
            title: &title,
            height: 0,
            width: 0,
            top: None,
            left: None,
            panels: vec![],
        });
        let root = picture(&document);
        let shown: Vec<char> = root.child("text").unwrap().text.chars().collect();
        assert_eq!(shown.len(), title.chars().count());
        for (shown, sign) in shown.into_iter().zip(title.chars()) {
            let replaced = if "\t\n\r".contains(sign) {
                ' '
            } else {
                '\u{FFFD}'
            };
            let number = sign as u32;
            let odd = number < 32 || (127..160).contains(&number) || number % 65_536 >= 65_534;
            assert_eq!(shown, if odd { replaced } else { sign }, "{number:X}");
        }
    }
}

fn one_panel(scale: Scale, values: [f32; 4]) -> String {
    let cell = move |i: usize, j: usize| Cell::Value(values[2 * i + j]);
    heat(&Heat {
        title: "a map",
        height: 2,
        width: 2,
        top: Some(vec!["600", "650"]),
        left: Some(vec!["5", "<10>"]),
        panels: vec![Panel {
            title: "before",
            scale,
            cell: Box::new(cell),
        }],
    })
}

#[test]
fn a_small_map() {
    let values = [1.0, 2.5, f32::NAN, 5.0];
    let document = one_panel(
        Scale::Values {
            low: 1.0,
            high: 5.0,
        },
        values,
    );
    let root = picture(&document);
    let cells: Vec<(&str, &str)> = root.all("g")[0]
        .children
        .iter()
        .map(|path| {
            (
                path.get("fill").unwrap(),
                &path.child("title").unwrap().text[..],
            )
        })
        .collect();
    let expected = [
        ("#440154", "5 / 600: 1"),
        ("#2c728e", "5 / 650: 2.5"),
        ("#ff00ff", "<10> / 600: not a number"),
        ("#fde725", "<10> / 650: 5"),
    ];
    assert_eq!(cells, expected);
    let texts: Vec<&str> = font::texts(&root).iter().map(|words| words.text).collect();
    let expected = [
        "a map",
        "before",
        "600",
        "650",
        "5",
        "<10>",
        "1",
        "3",
        "5",
        "magenta: not a number, or infinite",
    ];
    assert_eq!(texts, expected);
}

#[test]
fn legends() {
    let numbers = |scale: Scale| -> Vec<String> {
        let root = picture(&one_panel(scale, [0.0; 4]));
        let texts = font::texts(&root);
        texts[6..]
            .iter()
            .map(|words| words.text.to_string())
            .collect()
    };
    assert_eq!(
        numbers(Scale::Change { most: 0.25 }),
        ["-0.25", "0.00", "0.25"]
    );
    assert_eq!(numbers(Scale::Change { most: 0.0 }), ["0"]);
    assert_eq!(
        numbers(Scale::Values {
            low: 7.25,
            high: 7.25
        }),
        ["7.25"]
    );
    assert_eq!(
        numbers(Scale::Values {
            low: 0.0,
            high: 1e30
        }),
        ["0", "5.00e29", "1.00e30"]
    );
    let none: [&str; 0] = [];
    assert_eq!(
        numbers(Scale::Values {
            low: f32::INFINITY,
            high: f32::NEG_INFINITY
        }),
        none
    );
    assert_eq!(
        numbers(Scale::Values {
            low: f32::NAN,
            high: 1.0
        }),
        none
    );
    assert_eq!(
        numbers(Scale::Change {
            most: f32::INFINITY
        }),
        none
    );
}
