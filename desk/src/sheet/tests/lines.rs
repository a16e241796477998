//! Of a line that is turned back.

use super::*;

/// What is said of a line behind the grid, turned back by 1.
#[track_caller]
fn malformed(line: &str, words: &str) {
    let said = [
        "a:2: refused by 1: a malformed line",
        &format!("  {line}"),
        &format!("  {words}"),
    ];
    request_says(&[GRID, line], &said);
}

#[test]
fn characters_of_a_line() {
    malformed(
        "0200000000 ",
        "column 11: spaces at the end of the line; `zohmirka tidy` mends it",
    );
    malformed("02000 00000", "column 6: a space; a line is digits alone");
    malformed("0200000000 # up", "column 11: a sheet has no comments");
    malformed(
        "02000000G0",
        "column 9: 'G' is no digit; digits are 0-9 and A-F",
    );
    malformed(
        "02abcdefgh",
        "column 3: lowercase 'a'; digits are 0-9 and A-F",
    );
    malformed("020000000", "9 digits; a byte has two");
    request_says(
        &[GRID, ""],
        &[
            "a:2: refused by 1: a malformed line",
            "  an empty line; a sheet has none",
        ],
    );
    request_says(
        &[GRID, "02000000\u{e9}0"],
        &[
            "a:2: refused by 1: a malformed line",
            "  02000000\\xc3\\xa90",
            "  column 9: byte C3 is no digit; digits are 0-9 and A-F",
        ],
    );
    request_says(
        &[GRID, "0200000000\r"],
        &[
            "a:2: refused by 1: a malformed line",
            "  0200000000\\r",
            "  column 11: CR LF; a line ends with LF alone; `zohmirka tidy` mends it",
        ],
    );
}

#[test]
fn the_first_and_the_last_line() {
    let said = |bytes: &[u8]| message(Kind::Request, bytes);
    assert_eq!(
        said(b"\xEF\xBB\xBF010100000005\n020000\n0400\n"),
        "a:1: refused by 1: a malformed line
  \\xef\\xbb\\xbf010100000005
  a byte order mark stands before the first digit; `zohmirka tidy` mends it"
    );
    assert_eq!(
        said(b"\xFF\xFE0\x001\x00\n\x00"),
        "a:1: refused by 1: a malformed line
  \\xff\\xfe0\\x001\\x00
  UTF-16 text; a sheet is plain text of one byte a character"
    );
    for wide in [&b"0\x001\x00\n\x00"[..], b"\x000\x001\x00\n"] {
        assert!(said(wide).contains("UTF-16 text"));
    }
    assert_eq!(
        said(b"0\x00\x00\x00\n"),
        "a:1: refused by 1: a malformed line
  0\\x00\\x00\\x00
  column 2: byte 00 is no digit; digits are 0-9 and A-F"
    );
    assert_eq!(
        said(b"010100000005\n020000\n0400"),
        "a:3: refused by 1: a malformed line
  0400
  the last line lacks its LF; `zohmirka tidy` mends it"
    );
    // What tidy makes of a cut line is not good either.
    assert_eq!(
        said(b"010100000005\n020000\n04"),
        "a:3: refused by 1: a malformed line\n  04\n  the last line lacks its LF"
    );
}

#[test]
fn bytes_of_a_line() {
    malformed("0A00", "no line begins with 0A; they begin with 01 to 09");
    malformed("1000000000", "`10` lines are written by `run`, never read");
    malformed("1F06", "`1F` lines are written of a refusal, never read");
    malformed(
        "01",
        "1 byte; an `01` line has its dimension count behind the first",
    );
    malformed(
        "0900",
        "2 bytes; an `09` line has its row count (2 bytes) behind the first",
    );
    malformed("020000", "3 bytes; an `02` line in 2 dimensions has 5");
    malformed("03000000", "4 bytes; an `03` line has 5");
    malformed("050000000000", "6 bytes; an `05` line has 5");
    malformed("070101", "3 bytes; an `07` line has 2");
    let kernels = "kernels are 00 raw, 01 difference, 02 scaled and 03 blend";
    malformed(
        "04",
        &format!("1 byte; an `04` line has its kernel behind the first; {kernels}"),
    );
    malformed("0404", &format!("kernel 04; {kernels}"));
    malformed("040000", "3 bytes; an `04` line of raw has 2");
    malformed(
        "04033F000000",
        "6 bytes; an `04` line of blend, a and b has 10",
    );
}

#[test]
fn lengths_that_other_lines_set() {
    let first = "a:1: refused by 1: a malformed line";
    request_says(
        &["01020000000400"],
        &[
            first,
            "  01020000000400",
            "  7 bytes; an `01` line of 2 dimensions has 10",
        ],
    );
    request_says(
        &["0900020000000100"],
        &[
            first,
            "  0900020000000100",
            "  8 bytes; an `09` line of 2 rows has 11",
        ],
    );
    request_says(
        &["010100000005", "020000", "0800000001"],
        &[
            "a:3: refused by 1: a malformed line",
            "  0800000001",
            "  5 bytes; an `08` line in 1 dimension has 9",
        ],
    );
    chain_says(
        &["010100000005", "020003", "020000", "0300000003", "0601"],
        &[
            "a:5: refused by 1: a malformed line",
            "  0601",
            "  2 bytes; an `06` line of 2 references has 3",
        ],
    );
}

/// What is said of the last line, turned back by 2.
#[track_caller]
fn misplaced(kind: Kind, lines: &[&str], words: &str) {
    let said = [
        &format!(
            "a:{}: refused by 2: a line out of its order or missing",
            lines.len()
        ),
        &format!("  {}", lines[lines.len() - 1]),
        &format!("  {words}"),
    ];
    assert_eq!(
        message(kind, &sheet(lines)),
        said.map(String::as_str).join("\n")
    );
}

#[test]
fn lines_out_of_order() {
    misplaced(
        Kind::Request,
        &["0103000000030000000300000003", "0400"],
        "an `04` line may not stand behind the `01` of line 1; `02` or `07` may",
    );
    let (request, chain) = (Kind::Request, Kind::Chain);
    misplaced(
        request,
        &["0200000000"],
        "an `02` line may not stand on the first line; `01` or `09` may",
    );
    misplaced(
        request,
        &[GRID, "0400"],
        "an `04` line may not stand behind the `01` of line 1; `02` or `07` may",
    );
    misplaced(
        request,
        &[GRID, "0701", "0200000000"],
        "an `02` line may not stand behind the `07` of line 2; `08` or `04` may; \
         the `07` stands for all `02` lines",
    );
    misplaced(
        request,
        &[GRID, "0200000000", "0300000001"],
        "an `03` line may not stand behind the `02` of line 2; `02`, `08` or `04` may; \
         `03` lines stand in chain sheets",
    );
    misplaced(
        request,
        &["010100000005", "020000", "0400", "0500000001"],
        "an `05` line may not stand behind the `04` of line 3; nothing may; \
         cells are no part of a request sheet",
    );
    misplaced(
        chain,
        &[GRID, "0701"],
        "an `07` line may not stand behind the `01` of line 1; `02` may; \
         `07` lines stand in request sheets",
    );
    misplaced(
        chain,
        &["010100000005", "020003", "020000", "0400"],
        "an `04` line may not stand behind the `02` of line 3; `02`, `08` or `03` may; \
         of 2 references a chain sheet has 1 `03`, and 0 stood",
    );
    misplaced(
        chain,
        &[
            "010100000005",
            "020003",
            "020000",
            "0300000003",
            "0300000003",
        ],
        "an `03` line may not stand behind the `03` of line 4; `06` or `04` may; \
         of 2 references a chain sheet has 1 `03`, and 1 stood",
    );
}

#[test]
fn sheets_that_end_too_early() {
    let first = "a: refused by 2: a line out of its order or missing";
    request_says(
        &[],
        &[
            first,
            "  the sheet is empty; on the first line may stand `01` or `09`",
        ],
    );
    request_says(
        &["010100000005", "020000"],
        &[
            first,
            "  the `04` line is missing; behind the `02` of line 2 may stand `02`, `08` or `04`",
        ],
    );
    chain_says(
        &["010100000005", "020003", "020000"],
        &[
            first,
            "  the `04` line is missing; behind the `02` of line 3 may stand `02`, `08` or `03`; \
             of 2 references a chain sheet has 1 `03`, and 0 stood",
        ],
    );
}

#[test]
fn grids() {
    let three = "a:1: refused by 3: dimension count, sizes or number of cells";
    request_says(
        &["0105"],
        &[three, "  0105", "  5 dimensions; a grid has 1 to 4"],
    );
    request_says(
        &["01020000000400000000"],
        &[
            three,
            "  01020000000400000000",
            "  column: the size is 0; a size is 1 or more",
        ],
    );
    request_says(
        &["010300000001FFFFFFFF00000002"],
        &[
            three,
            "  010300000001FFFFFFFF00000002",
            "  1 x 4,294,967,295 x 2 = 8,589,934,590 cells; a grid has at most 1,048,576",
        ],
    );
    let sixteen = "a:1: refused by 16: a row count, start or length outside its range";
    request_says(
        &["090000"],
        &[sixteen, "  090000", "  0 rows; a skewed grid has 1 to 512"],
    );
    request_says(
        &["0900020FFF000110000001"],
        &[
            sixteen,
            "  0900020FFF000110000001",
            "  row 1: the start is 4,096; a start is 0 to 4,095",
        ],
    );
    request_says(
        &["09000100000401"],
        &[
            sixteen,
            "  09000100000401",
            "  row 0: the length is 1,025; a length is 1 to 1,024",
        ],
    );
}

#[test]
fn the_largest_numbers_of_a_skewed_grid_are_not_at_fault() {
    let said = |rows: &str| {
        let line = format!("09{rows}");
        let message = message(Kind::Request, &sheet(&[&line]));
        message.lines().last().map(str::to_string)
    };
    assert_eq!(
        said("00020FFF040000000000").as_deref(),
        Some("  row 1: the length is 0; a length is 1 to 1,024")
    );
    let many = "00000001".repeat(511);
    assert_eq!(
        said(&format!("0200{many}00000000")).as_deref(),
        Some("  row 511: the length is 0; a length is 1 to 1,024")
    );
}

#[test]
fn windows() {
    let four: Vec<String> = (0..33).map(|entry| format!("02{entry:04X}")).collect();
    let lines: Vec<&str> = four.iter().map(String::as_str).collect();
    request_says(
        &[&["010100000064"], &lines[..]].concat(),
        &[
            "a:34: refused by 4: number of references",
            "  020020",
            "  the 33rd reference; a window has at most 32",
        ],
    );
    let thirteen =
        "a:2: refused by 13: no name of a window, or one of other dimensions than the grid's";
    request_says(
        &[GRID, "0706"],
        &[
            thirteen,
            "  0706",
            "  no window is named 06; names are 01 to 05",
        ],
    );
    request_says(
        &[GRID, "0704"],
        &[
            thirteen,
            "  0704",
            "  window 04 has 3 dimensions, and the grid 2",
        ],
    );
}
