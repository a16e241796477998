//! Of what is found after the last line.

use super::*;

#[test]
fn six_names_the_dimensions_that_are_too_small() {
    let six = "a: refused by 6: no iteration";
    request_says(
        &["01020000000200000004", "0200000003", "020001FFFF", "0400"],
        &[six, "  column: the size is 4, and the window spans 5"],
    );
    chain_says(
        &["010100000002", "020001", "02FFFF", "0300000002", "0400"],
        &[six, "  dimension 0: the size is 2, and the window spans 3"],
    );
    request_says(
        &["01020000000200000002", "0703", "0400"],
        &[
            six,
            "  row: the size is 2, and the window spans 3",
            "  column: the size is 2, and the window spans 3",
        ],
    );
    // Two rows that have no column in common.
    request_says(
        &["0900020000000200050002", "0200000000", "0200010000", "0400"],
        &[
            six,
            "  no row has room: wherever the window lies, a reference of it is outside",
        ],
    );
    request_says(
        &["0900020000000900000009", "0701", "0400"],
        &[six, "  row: the size is 2, and the window spans 3"],
    );
}

#[test]
fn seven_names_the_kernel() {
    request_says(
        &[GRID, "0702", "0401"],
        &[
            "a: refused by 7: difference or blend without a centre",
            "  line 3: difference needs the offset (0,0), and no reference has it",
        ],
    );
    request_says(
        &["010100000005", "020001", "04033F8000003F800000"],
        &[
            "a: refused by 7: difference or blend without a centre",
            "  line 3: blend needs the offset (0), and no reference has it",
        ],
    );
}

#[test]
fn eight_names_the_factors() {
    let eight = "a: refused by 8: a factor that is infinite or not a number";
    request_says(
        &["010100000005", "020000", "0402FF800000"],
        &[eight, "  line 3: the factor is minus infinite (FF800000)"],
    );
    request_says(
        &["010100000005", "020000", "04033F8000007FC00001"],
        &[eight, "  line 3: b is not a number (7FC00001)"],
    );
    request_says(
        &["010100000005", "020000", "04037F8000007FC00001"],
        &[
            eight,
            "  line 3: a is infinite (7F800000)",
            "  line 3: b is not a number (7FC00001)",
        ],
    );
}

#[test]
fn nine_says_the_sum() {
    let nine = "a: refused by 9: capacities summing above 16,384";
    chain_says(
        &[
            "010100000005",
            "020003",
            "020001",
            "020000",
            "03FFFFFFFF",
            "0300000002",
            "0400",
        ],
        &[
            nine,
            "  the capacities sum to 4,294,967,297; they may sum to 16,384",
        ],
    );
    request_says(
        &["010100004E20", "020000", "024001", "0400"],
        &[
            nine,
            "  the reuse distances sum above 16,384, which is more than a store holds",
        ],
    );
}

#[test]
fn fourteen_names_the_filters() {
    let fourteen = "a: refused by 14: an order that does not hold each filter number once";
    chain_says(
        &[
            "010100000005",
            "020003",
            "020000",
            "0300000003",
            "060101",
            "0400",
        ],
        &[
            fourteen,
            "  line 5: filter 1 stands more than once; filter 0 is missing",
        ],
    );
    chain_says(
        &[
            "010100000005",
            "020003",
            "020000",
            "0300000003",
            "060102",
            "0400",
        ],
        &[
            fourteen,
            "  line 5: 2 is no filter, they are 0 to 1; filter 0 is missing",
        ],
    );
}

#[test]
fn fifteen_names_the_ends_of_the_box() {
    let fifteen = "a: refused by 15: a box with a lowest index above its highest, \
                   or with an iteration that reads outside the grid";
    // The cross has rows 1 to 2 and columns 1 to 3 of this grid.
    request_says(
        &[GRID, "0701", "0800000001000000020000000100000004", "0400"],
        &[
            fifteen,
            "  line 3: the box's column is 1 to 4; it may be 1 to 3",
        ],
    );
    request_says(
        &[GRID, "0701", "08FFFFFFFF000000020000000300000004", "0401"],
        &[
            fifteen,
            "  line 3: the box's row is -1 to 2; it may be 1 to 2",
            "  line 3: the box's column is 3 to 4; it may be 1 to 3",
        ],
    );
    chain_says(
        &[
            "010100000005",
            "020003",
            "020000",
            "080000000200000001",
            "0300000003",
            "0400",
        ],
        &[
            fifteen,
            "  line 4: the box's dimension 0 is 2 to 1, the lowest index above the highest",
        ],
    );
    let far = [
        "010100004E20",
        "020000",
        "024001",
        "080000000000000FFF",
        "0400",
    ];
    request_says(
        &far,
        &[
            fifteen,
            "  line 4: a vector of the box is no iteration; which one is not known: \
             the reuse distances sum above 16,384",
        ],
    );
}

#[test]
fn fifteen_on_rows_names_the_first_vector() {
    let fifteen = "a: refused by 15: a box with a lowest index above its highest, \
                   or with an iteration that reads outside the grid";
    // Rows of columns 2 to 3, 2 and 2: with the cell above, iterations are (1,2) and (2,2).
    let rows = "090003000200020002000100020001";
    request_says(
        &[
            rows,
            "0200000000",
            "02FFFF0000",
            "0800000001000000020000000200000003",
            "0400",
        ],
        &[
            fifteen,
            "  line 4: (1,3) is no iteration; row 1 has column 2",
        ],
    );
    request_says(
        &[
            rows,
            "0200000000",
            "02FFFF0000",
            "0880000000000000020000000200000002",
            "0400",
        ],
        &[
            fifteen,
            "  line 4: (-2147483648,2) is no iteration; row -2147483648 has none",
        ],
    );
}

#[test]
fn options_have_no_lines() {
    let said = |lines: &[&str]| {
        let sheet = sheet(lines);
        let refusal = Kind::Request.judge(&sheet).expect_err("a refused sheet");
        refused_options(&sheet, refusal).text().to_string()
    };
    assert_eq!(
        said(&["01020000000400000000", "0701", "0400"]),
        "request: refused by 3: dimension count, sizes or number of cells
  column: the size is 0; a size is 1 or more"
    );
    assert_eq!(
        said(&[GRID, "0702", "0401"]),
        "request: refused by 7: difference or blend without a centre
  difference needs the offset (0,0), and no reference has it"
    );
}

#[test]
fn numbers_that_no_sheet_gets_have_words_too() {
    let good = sheet(&["010100000005", "020000", "0400"]);
    let fault = refused("a", &good, Kind::Request, Refusal::ShortStore);
    assert_eq!(
        fault.text(),
        "a: refused by 10: a store that is too short\n  no line is at fault by itself"
    );
}
