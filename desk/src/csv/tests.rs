//! Whole maps, read.

use super::*;

const FUEL: &str = "load\\rpm,600,650,700\n5,1,2.5,3\n10,4,5,6\n";

fn asked() -> Asked {
    Asked::default()
}

fn slanted() -> Asked {
    Asked {
        slanted: true,
        ..asked()
    }
}

fn with_axes(axes: Axes) -> Asked {
    Asked {
        axes: Some(axes),
        ..asked()
    }
}

fn map(text: &str, asked: &Asked) -> Map {
    match read(text.as_bytes().to_vec(), asked) {
        Ok(map) => map,
        Err(fault) => panic!("{fault}"),
    }
}

fn fault(text: &str, asked: &Asked) -> String {
    let map = read(text.as_bytes().to_vec(), asked);
    map.err().expect("the map has a fault").to_string()
}

fn floats(map: &Map) -> Vec<f32> {
    map.cells()
        .iter()
        .map(|&word| f32::from_bits(word))
        .collect()
}

#[test]
fn a_map_with_both_axes() {
    let map = map(FUEL, &asked());
    assert_eq!((map.height(), map.width()), (2, 3));
    assert_eq!(floats(&map), [1.0, 2.5, 3.0, 4.0, 5.0, 6.0]);
    assert_eq!(
        map.rows(),
        [Row {
            start: 0,
            length: 3
        }; 2]
    );
    assert_eq!(map.word(1, 2), Some(6f32.to_bits()));
    assert_eq!([map.word(2, 0), map.word(0, 3)], [None, None]);
    assert_eq!(map.text(0, 1), "2.5");
    assert_eq!(map.text(9, usize::MAX - 1), "");
    assert_eq!(map.top(), Some(vec!["600", "650", "700"]));
    assert_eq!(map.left(), Some(vec!["5", "10"]));
    assert!(!map.is_slanted());
    assert_eq!(
        map.taken(),
        "2 rows of 3 cells, ',' between fields, decimal '.', axes both"
    );
}

#[test]
fn axes_that_are_given() {
    let text = "600,650\n1,2\n";
    let top = map(text, &with_axes(Axes::Top));
    assert_eq!(
        (floats(&top), top.top(), top.left()),
        (vec![1.0, 2.0], Some(vec!["600", "650"]), None)
    );
    let left = map(text, &with_axes(Axes::Left));
    assert_eq!(
        (floats(&left), left.top(), left.left()),
        (vec![650.0, 2.0], None, Some(vec!["600", "1"]))
    );
    assert_eq!(
        floats(&map(text, &with_axes(Axes::None))),
        [600.0, 650.0, 1.0, 2.0]
    );
    let both = map("x,low,\nidle,1,2\n", &with_axes(Axes::Both));
    assert_eq!(
        (both.top(), both.left()),
        (Some(vec!["low", ""]), Some(vec!["idle"]))
    );
    assert_eq!(
        fault("1,2\n", &with_axes(Axes::Top)),
        "1: labels, and no row of cells below them"
    );
    assert_eq!(
        fault("1\n2\n", &with_axes(Axes::Left)),
        "1: labels, and no column of cells behind them"
    );
    assert_eq!(
        fault(
            "1\n2\n",
            &Asked {
                slanted: true,
                ..with_axes(Axes::Both)
            }
        ),
        "1: labels, and no column of cells behind them"
    );
}

#[test]
fn an_empty_cell_is_a_fault_with_its_labels() {
    assert_eq!(
        fault("x,600,675,700\n34,1,,3\n", &asked()),
        "2:3: empty cell (row \"34\", column \"675\"); --fill VALUE puts a number there"
    );
    assert_eq!(
        fault("1,3,2,4\n1,2,3,4\n1,, ,4\n", &asked()),
        "3:2: empty cell (row 3, column 2); --fill VALUE puts a number there"
    );
    assert_eq!(
        fault("a,b,c\n1,,3\n", &with_axes(Axes::Top)),
        "2:2: empty cell (row 1, column \"b\"); --fill VALUE puts a number there"
    );
    assert_eq!(
        fault("\"\"\n5\n", &with_axes(Axes::None)),
        "1:1: empty cell (row 1, column 1); --fill VALUE puts a number there"
    );
    let label = format!("\"{}\"", "y".repeat(60));
    assert_eq!(
        fault(
            &format!("{},1,,3\n", "y".repeat(70)),
            &with_axes(Axes::Left)
        ),
        format!("1:3: empty cell (row {label}.., column 2); --fill VALUE puts a number there")
    );
}

#[test]
fn an_empty_corner_may_be_a_cell_where_cells_may_be_empty() {
    let text = ",9,7,8\n5,1,2,3\n";
    assert_eq!(map(text, &asked()).top(), Some(vec!["9", "7", "8"]));
    let fill = Asked {
        fill: Some(0),
        ..asked()
    };
    for asked in [fill, slanted()] {
        assert!(fault(text, &asked).starts_with("1:1: the corner may be an empty cell"));
    }
}

#[test]
fn empty_cells_are_filled_if_asked() {
    let fill = Asked {
        fill: Some(0.5f32.to_bits()),
        ..asked()
    };
    let map = map("x,600,650\n5,,2\n10,3,\n", &fill);
    assert_eq!(floats(&map), [0.5, 2.0, 3.0, 0.5]);
    assert_eq!(map.text(0, 0), "");
}

#[test]
fn empty_cells_at_a_rows_ends_hint_at_slanted_maps() {
    let hint = "; --slanted leaves empty cells at a row's ends outside the map";
    assert_eq!(
        fault("x,600,650\n5,,2\n10,3,4\n", &asked()),
        format!(
            "2:2: empty cell (row \"5\", column \"600\"); --fill VALUE puts a number there{hint}"
        )
    );
    assert_eq!(
        fault("x,600,650\n5,1,2\n10,3\n", &asked()),
        format!("3: 2 fields, and the first line has 3{hint}")
    );
    assert_eq!(
        fault("x,600,650,700\n5,,2,3\n10,3,,4\n", &asked()),
        "2:2: empty cell (row \"5\", column \"600\"); --fill VALUE puts a number there"
    );
    assert_eq!(
        fault("x,600,650\n5,,2\n10,,\n", &asked()),
        "2:2: empty cell (row \"5\", column \"600\"); --fill VALUE puts a number there"
    );
}

#[test]
fn slanted_maps() {
    let torque = map("x,600,650,700\n5,,2,3\n10,3\n15,,\" 7 \",\n", &slanted());
    assert!(torque.is_slanted());
    assert_eq!((torque.height(), torque.width()), (3, 3));
    let row = |start, length| Row { start, length };
    assert_eq!(torque.rows(), [row(1, 2), row(0, 1), row(1, 1)]);
    assert_eq!(floats(&torque), [2.0, 3.0, 3.0, 7.0]);
    assert_eq!(
        [torque.word(0, 0), torque.word(1, 1), torque.word(2, 2)],
        [None; 3]
    );
    assert_eq!(torque.word(2, 1), Some(7f32.to_bits()));
    assert_eq!(
        torque.taken(),
        "3 slanted rows of 1 to 2 cells, ',' between fields, decimal '.', axes both"
    );
    assert_eq!(
        fault("x,600,650,700\n5,1,,3\n", &slanted()),
        "2:3: empty cell (row \"5\", column \"650\"); --fill VALUE puts a number there"
    );
    assert_eq!(
        fault("x,600,650\n5,1,2\n10,,\n", &slanted()),
        "3: a row without a cell (row \"10\")"
    );
    let filled = Asked {
        fill: Some(0),
        ..slanted()
    };
    let filled = map("x,600,650,700\n5,1,,3\n10,,4,\n", &filled);
    assert_eq!(filled.rows(), [row(0, 3), row(1, 1)]);
    assert_eq!(floats(&filled), [1.0, 0.0, 3.0, 4.0]);
}

#[test]
fn what_is_no_number() {
    assert_eq!(
        fault("x,600,650\n5,1,inf\n", &asked()),
        "2:3: \"inf\" is not a number (row \"5\", column \"650\")"
    );
    assert_eq!(
        fault("x,600,650\n5,1,-1e39\n", &asked()),
        "2:3: \"-1e39\" is too large for an f32 (row \"5\", column \"650\")"
    );
    assert_eq!(
        fault("x;600;650\n5;1;1.234,5\n", &asked()),
        "2:3: \"1.234,5\" is not a number (row \"5\", column \"650\")"
    );
    let point = Asked {
        decimal: Some(b'.'),
        ..asked()
    };
    assert_eq!(
        fault("x;600;650\n5;1;1,5\n", &point),
        "2:3: \"1,5\" is not a number (row \"5\", column \"650\"); --decimal , reads it"
    );
    let comma = Asked {
        decimal: Some(b','),
        ..asked()
    };
    assert_eq!(
        fault("x;600;650\n5;1;1.5\n", &comma),
        "2:3: \"1.5\" is not a number (row \"5\", column \"650\"); --decimal . reads it"
    );
    assert_eq!(
        fault("x,600,650\n5,1,\"1,5\"\n", &asked()),
        "2:3: \"1,5\" is not a number (row \"5\", column \"650\")"
    );
}

#[test]
fn words_as_integers() {
    let words = Asked {
        cells: Cells::U32,
        ..asked()
    };
    let map = map("x,600,650\n5,0,4294967295\n", &words);
    assert_eq!(map.cells(), [0, u32::MAX]);
    assert_eq!(map.kind(), Cells::U32);
    assert_eq!(
        map.taken(),
        "1 row of 2 cells, ',' between fields, decimal '.', axes both, cells u32"
    );
    assert_eq!(
        fault("x,600,650\n5,0,1.5\n", &words),
        "2:3: \"1.5\" is not a whole number from 0 to 4294967295 (row \"5\", column \"650\")"
    );
    assert_eq!(Cells::U32.word("7"), Ok(7));
    assert_eq!(Cells::F32.word("1.5"), Ok(0x3FC0_0000));
    assert_eq!(
        Cells::F32.word("1,5"),
        Err("\"1,5\" is not a number".to_string())
    );
}
