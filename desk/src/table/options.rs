//! The options, each once.
use super::Flag;

pub(super) const OUTPUT: &[Flag] = &[Flag {
    name: "-o",
    value: "FILE",
    words: "where the result goes, whole or not at all; standard output without it",
    choices: &[],
}];

pub(super) const GRID: &[Flag] = &[Flag {
    name: "--grid",
    value: "GRID",
    words: "48x64 by its sizes, rows:2+5,3+5 by first column and length of each row, or \
            like:MAP.csv",
    choices: &["rows:", "like:"],
}];

pub(super) const WINDOW: &[Flag] = &[
    Flag {
        name: "--window",
        value: "WINDOW",
        words: "cross, four, square (2 dimensions), seven, nineteen (3), or offsets as in \
                \"0,0;0,-1;1,0\"",
        choices: &["cross", "four", "square", "seven", "nineteen"],
    },
    Flag {
        name: "--box",
        value: "BOX",
        words: "only these iterations: lowest and highest index of each dimension, as in \
                1..2,2..3",
        choices: &[],
    },
    Flag {
        name: "--kernel",
        value: "KERNEL",
        words: "raw, difference, scaled:F (F times the sum) or blend:A,B (A times the centre plus \
                B times the sum of the others)",
        choices: &["raw", "difference", "scaled:", "blend:"],
    },
];

pub(super) const CSV: &[Flag] = &[
    Flag {
        name: "--axes",
        value: "WHERE",
        words: "which edges of the table hold axes: both, top, left or none",
        choices: &["both", "top", "left", "none"],
    },
    Flag {
        name: "--slanted",
        value: "",
        words: "empty cells at a row's ends lie outside the map",
        choices: &[],
    },
    Flag {
        name: "--fill",
        value: "VALUE",
        words:
            "the number that an empty cell stands for; nan lets every result that reads one be nan",
        choices: &[],
    },
    Flag {
        name: "--cells",
        value: "TYPE",
        words: "f32: cells are numbers (as without it); u32: cells are words, as integers",
        choices: &["f32", "u32"],
    },
];

pub(super) const DIALECT: &[Flag] = &[
    Flag {
        name: "--delimiter",
        value: "SIGN",
        words: "what stands between fields: , ; or tab",
        choices: &[",", ";", "tab"],
    },
    Flag {
        name: "--decimal",
        value: "SIGN",
        words: "the decimal point: . or ,",
        choices: &[".", ","],
    },
];

pub(super) const SMOOTHED: &[Flag] = &[
    Flag {
        name: "--rim",
        value: "WHAT",
        words: "cells without a result: empty (as without it), or keep the text as read",
        choices: &["empty", "keep"],
    },
    Flag {
        name: "--digits",
        value: "N",
        words: "so many digits behind the decimal point; without it the shortest text \
                            of the same f32",
        choices: &[],
    },
    Flag {
        name: "--svg",
        value: "FILE",
        words: "a picture: before, after, change",
        choices: &[],
    },
];

pub(super) const SECOND: &[Flag] = &[Flag {
    name: "--second",
    value: "FILE",
    words: "where the second request's map goes; standard output without it",
    choices: &[],
}];

pub(super) const BINS: &[Flag] = &[
    Flag {
        name: "--rows",
        value: "AXIS",
        words: "the rows' column and centres, as in load=5:100:5 (first, last, step)",
        choices: &[],
    },
    Flag {
        name: "--columns",
        value: "AXIS",
        words: "the columns' column and centres, as in rpm=600:2050:50",
        choices: &[],
    },
    Flag {
        name: "--value",
        value: "NAME",
        words: "the column whose mean is taken",
        choices: &[],
    },
    Flag {
        name: "--least",
        value: "N",
        words: "a bin of fewer lines is empty; 1 without it",
        choices: &[],
    },
];

pub(super) const TABLE: &[Flag] = &[Flag {
    name: "--table",
    value: "",
    words: "a table of filters and FIFOs in place of the sheet",
    choices: &[],
}];

pub(super) const LINES: &[Flag] = &[Flag {
    name: "--csv",
    value: "",
    words: "a line for each firing: the indices of its iteration, then its words",
    choices: &[],
}];

pub(super) const CLOCKS: &[Flag] = &[
    Flag {
        name: "--from",
        value: "A",
        words: "the first clock that is drawn; 0 without it",
        choices: &[],
    },
    Flag {
        name: "--to",
        value: "B",
        words: "the clock before which it ends; the run's end without it",
        choices: &[],
    },
];
