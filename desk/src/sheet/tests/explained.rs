//! Of sheets line by line.

use super::*;

#[track_caller]
fn explains(lines: &[&str], text_lines: &[&str]) {
    let text = explain("a", &sheet(lines)).expect("a sheet that can be explained");
    assert_eq!(text, text_lines.join("\n") + "\n");
}

#[test]
fn a_chain_and_cells() {
    explains(
        &[
            "01020000000400000005",
            "0200010000",
            "0200000001",
            "0800000001000000010000000200000003",
            "0300000004",
            "060100",
            "04023E000000",
            "0541400000",
            "057F800000",
        ],
        &[
            "a: a chain sheet, then 2 cells",
            "01020000000400000005                grid: 4 rows of 5 cells",
            "0200010000                          filter 0: offset (1,0)",
            "0200000001                          filter 1: offset (0,1)",
            "0800000001000000010000000200000003  box: row 1, column 2 to 3",
            "0300000004                          FIFO 0, between (1,0) and (0,1): 4 places",
            "060100                              the author's order: filters 1, 0",
            "04023E000000                        kernel: scaled, factor 0.125",
            "0541400000                          cell 0: 12.0 (41400000)",
            "057F800000                          cell 1: infinite (7F800000)",
        ],
    );
}

#[test]
fn requests() {
    explains(
        &["0103000000280000002000000020", "0704", "04033F0000003E000000"],
        &[
            "a: a request sheet",
            "0103000000280000002000000020  grid: 40 x 32 x 32 cells",
            "0704                          window 04: offsets (1,0,0) (0,1,0) (0,0,1) (0,0,0) (0,0,-1) (0,-1,0) (-1,0,0)",
            "04033F0000003E000000          kernel: blend, a = 0.5, b = 0.125",
        ],
    );
    explains(
        &["090003000200020002000100020001", "0200000000", "02FFFF0000", "0400"],
        &[
            "a: a request sheet",
            "090003000200020002000100020001  skewed grid of 3 rows: row 0: column 2 to 3; row 1 to 2: column 2",
            "0200000000                      reference 0: offset (0,0)",
            "02FFFF0000                      reference 1: offset (-1,0)",
            "0400                            kernel: raw",
        ],
    );
    explains(
        &["010100000005", "020003", "080000000000000001", "0400"],
        &[
            "a: a chain sheet, which is a request sheet too",
            "010100000005        grid: 5 cells",
            "020003              filter 0: offset (3)",
            "080000000000000001  box: dimension 0: 0 to 1",
            "0400                kernel: raw",
        ],
    );
}

#[test]
fn many_rows_are_shortened() {
    let rows: String = (0..8).map(|row| format!("{row:04X}0002")).collect();
    explains(
        &[&format!("090008{rows}"), "0200000000", "0200000001", "0400"],
        &[
            "a: a request sheet",
            "09000800000002000100020002000200030002..  skewed grid of 8 rows: row 0: column 0 to 1; row 1: column 1 to 2; ..; row 7: column 7 to 8",
            "0200000000                                reference 0: offset (0,0)",
            "0200000001                                reference 1: offset (0,1)",
            "0400                                      kernel: raw",
        ],
    );
}

#[test]
fn six_rows_are_not_shortened() {
    let rows: String = (0..6).map(|row| format!("{row:04X}0002")).collect();
    let sheet = sheet(&[&format!("090006{rows}"), "0200000000", "0400"]);
    let text = explain("a", &sheet).expect("an accepted sheet");
    assert!(text.contains("; row 2: column 2 to 3; row 3: column 3 to 4; "));
}

#[test]
fn what_is_written() {
    explains(
        &["10000000004140000080000000", "11010000000A"],
        &[
            "a: what a run wrote",
            "10000000004140000080000000  firing 0: 12.0 (41400000), -0.0 (80000000)",
            "11010000000A                stalled after 10 clocks",
        ],
    );
    explains(
        &["1F06"],
        &["a: a refusal", "1F06  refused by 6: no iteration"],
    );
    explains(
        &["0500000000"],
        &["a: 1 cell", "0500000000  cell 0: 0.0 (00000000)"],
    );
}

#[track_caller]
fn faults(text: &[u8], status: u8, message: &str) {
    let fault = explain("a", text).expect_err("a sheet that is refused");
    assert_eq!((fault.status(), fault.text()), (status, message));
}

#[test]
fn refused_sheets_say_why() {
    faults(
        b"010100000005\n020003\n020000\n03000003\n0400\n",
        1,
        "a:4: refused by 1: a malformed line\n  03000003\n  4 bytes; an `03` line has 5",
    );
    faults(
        b"010100000005\n020003\n020003\n0400\n",
        1,
        "a: refused by 5: two equal offsets\n  lines 2 and 3: (3)",
    );
    faults(
        b"0500000000\r\n",
        1,
        "a:1: refused by 1: a malformed line
  0500000000\\r
  column 11: CR LF; a line ends with LF alone; `zohmirka tidy` mends it",
    );
    faults(
        b"\xEF\xBB\xBF0500000000\n",
        1,
        "a:1: refused by 1: a malformed line
  \\xef\\xbb\\xbf0500000000
  a byte order mark stands before the first digit; `zohmirka tidy` mends it",
    );
    faults(
        b"0500000000\n050000000000\n",
        1,
        "a:2: refused by 1: a malformed line\n  050000000000\n  6 bytes; an `05` line has 5",
    );
    // Tidy mends a mark before the first line alone.
    faults(
        b"0500000000\n\xEF\xBB\xBF0500000000\n",
        1,
        "a:2: refused by 1: a malformed line
  \\xef\\xbb\\xbf0500000000
  column 1: byte EF is no digit; digits are 0-9 and A-F",
    );
    faults(
        b"0500000000\n\n",
        1,
        "a:2: refused by 1: a malformed line\n  an empty line; a sheet has none",
    );
    faults(
        b"010100000001\n020000\n0400\n0500000000\n0400\n",
        1,
        "a:5: refused by 2: a line out of its order or missing
  0400
  among cells `05` lines alone may stand",
    );
    faults(
        b"100000000000000000\n1103000000001\n",
        2,
        "a:2: no line that a run writes\n  1103000000001\n  13 digits; a byte has two",
    );
    // A firing has 1 to 32 words.
    for words in [0, 33] {
        let line = format!("1000000000{}\n", "00000000".repeat(words));
        let fault = explain("a", line.as_bytes()).expect_err("no firing");
        assert_eq!(fault.status(), 2, "{words} words");
    }
    faults(
        b"110000000001\n110000000001\n",
        2,
        "a:2: no line that a run writes
  110000000001
  a run writes `10` lines, then one `11` or `1F`",
    );
}
