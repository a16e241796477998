//! The commands, in the order in which the help lists them.
use super::options::{
    BINS, CLOCKS, CSV, DIALECT, GRID, LINES, OUTPUT, SECOND, SMOOTHED, TABLE, WINDOW,
};
use super::{Command, Count, Operand};
use crate::commands;

const fn one(name: &'static str) -> Operand {
    Operand {
        name,
        count: Count::One,
        choices: &[],
    }
}

const REQUEST: Operand = Operand {
    name: "REQUEST",
    count: Count::AtMostOne,
    choices: &[],
};
const CHAINS: Operand = Operand {
    name: "CHAIN",
    count: Count::Some,
    choices: &[],
};
const SHELL: Operand = Operand {
    name: "SHELL",
    count: Count::One,
    choices: &["bash", "zsh"],
};
const TOPIC: Operand = Operand {
    name: "COMMAND",
    count: Count::Any,
    choices: &[],
};

/// Words that several commands share.
const REQUESTS: &str = "\
REQUEST is a request sheet, or in place of it --grid, --window and --kernel, and --box if need be.";

const MAPS: &str = "\
MAP is a map in CSV, or cells in 05 lines.";

pub const COMMANDS: &[Command] = &[
    Command {
        name: "smooth",
        operands: &[one("MAP.csv")],
        summary: "smooth a map in CSV: planned, run and written back as CSV",
        details: "\
The map is streamed through the chain that is planned for its grid, and each result is written where
its iteration lies, in the dialect that was read. Nothing is padded: a cell whose window leaves the
map, or that lies outside the box, has no result and is empty, or with --rim keep as it was read.",
        options: &[
            WINDOW,
            CSV,
            DIALECT,
            SMOOTHED,
            OUTPUT,
        ],
        examples: &[
            "zohmirka smooth fuel.csv --window cross --kernel blend:0.5,0.125 -o out.csv --svg look.svg",
            "zohmirka smooth torque.csv --slanted --window cross --kernel blend:0.5,0.125 --rim keep -o whole.csv",
        ],
        run: commands::smooth::run,
    },
    Command {
        name: "pair",
        operands: &[one("REQUEST"), one("REQUEST"), one("MAP")],
        summary: "a map smoothed by two requests in one trip: two kernels on one chain",
        details: "\
Both requests are sheets for the map's own grid, with the same box if any, and each has a plan of its
own. MAP, in CSV or cells in 05 lines, is streamed once through a chain that is planned for both
windows together, and each firing gives a result to either map. So a cell has both results or none:
none where either window leaves the map.
The first request's map goes to -o, the second's to --second; on standard output the second stands
below the first, behind an empty line. The picture shows before, both results and both changes.",
        options: &[
            CSV,
            DIALECT,
            SMOOTHED,
            SECOND,
            OUTPUT,
        ],
        examples: &[
            "zohmirka pair fuel.request timing.request map.csv",
            "zohmirka pair fuel.request timing.request map.csv -o first.csv --second second.csv --svg both.svg",
        ],
        run: commands::pair::run,
    },
    Command {
        name: "bin",
        operands: &[one("LOG.csv")],
        summary: "the means of a log as a map",
        details: "\
Each line of the log goes to the bin whose centre is nearest: from half a step below it, which
counts, to half a step above, which does not. A bin of fewer lines than --least is empty; lines with
an empty field and lines outside all bins are counted on standard error.",
        options: &[
            BINS,
            DIALECT,
            OUTPUT,
        ],
        examples: &["zohmirka bin log.csv --rows load=20:100:20 --columns rpm=600:1400:200 --value torque --least 3"],
        run: commands::bin::run,
    },
    Command {
        name: "request",
        operands: &[REQUEST],
        summary: "a request sheet",
        details: REQUESTS,
        options: &[GRID, WINDOW, CSV, DIALECT, OUTPUT],
        examples: &["zohmirka request --grid 4x5 --window cross --box 1..1,2..3 --kernel blend:0.5,0.125"],
        run: commands::request::run,
    },
    Command {
        name: "plan",
        operands: &[REQUEST],
        summary: "the chain sheet of a request",
        details: REQUESTS,
        options: &[
            TABLE,
            GRID,
            WINDOW,
            CSV,
            DIALECT,
            OUTPUT,
        ],
        examples: &[
            "zohmirka plan a.request -o a.chain",
            "zohmirka plan --grid 4x5 --window cross --kernel raw --table",
        ],
        run: commands::plan::run,
    },
    Command {
        name: "run",
        operands: &[one("CHAIN"), one("MAP")],
        summary: "a chain run over a map",
        details: "\
MAP is a map in CSV, of the chain's own rows and columns, or cells in 05 lines. What is written is
what the program run writes: a 10 line for each firing and one 11 line; with --csv a line for each
firing, with the indices of its iteration and its words.",
        options: &[
            LINES,
            CSV,
            DIALECT,
            OUTPUT,
        ],
        examples: &["zohmirka run a.chain map.csv --csv", "zohmirka run a.chain a.cells"],
        run: commands::run::run,
    },
    Command {
        name: "cells",
        operands: &[one("MAP")],
        summary: "a map's cells as 05 lines",
        details: MAPS,
        options: &[CSV, DIALECT, OUTPUT],
        examples: &["zohmirka cells map.csv"],
        run: commands::cells::run,
    },
    Command {
        name: "explain",
        operands: &[one("SHEET")],
        summary: "a sheet in words, line by line",
        details: "\
SHEET is a request sheet, a chain sheet, cells, or what plan and run write.",
        options: &[OUTPUT],
        examples: &["zohmirka explain a.chain", "zohmirka explain bad.request"],
        run: commands::explain::run,
    },
    Command {
        name: "check",
        operands: &[CHAINS],
        summary: "whether chains finish: a line each, with what is short",
        details: "\
A chain finishes exactly if its offsets fall and each FIFO has at least the places that the plan of
the same window has. Status 0 says that all do, 1 that one stalls or is refused.",
        options: &[],
        examples: &["zohmirka check a.chain short.chain"],
        run: commands::check::run,
    },
    Command {
        name: "windows",
        operands: &[],
        summary: "the five windows on a grid: filters, FIFOs, places in all",
        details: "\
A window of other dimensions than the grid's has no plan; the refusal stands in its line. Status 1
says that none has one.",
        options: &[GRID, CSV, DIALECT, OUTPUT],
        examples: &["zohmirka windows --grid 768x1024"],
        run: commands::windows::run,
    },
    Command {
        name: "tidy",
        operands: &[one("SHEET")],
        summary: "a sheet mended: CR LF, BOM, lower case, trailing spaces, a missing last line feed",
        details: "\
What was mended is said on standard error. Whether the sheet is accepted is not looked at.",
        options: &[OUTPUT],
        examples: &["zohmirka tidy windows.request"],
        run: commands::tidy::run,
    },
    Command {
        name: "draw heat",
        operands: &[one("MAP")],
        summary: "a map as a picture (SVG)",
        details: "\
MAP is a map in CSV, or cells in 05 lines with --grid for their rows and columns.",
        options: &[GRID, CSV, DIALECT, OUTPUT],
        examples: &["zohmirka draw heat map.csv -o map.svg"],
        run: commands::draw::heat,
    },
    Command {
        name: "draw chain",
        operands: &[one("CHAIN")],
        summary: "a chain as a picture (SVG), short FIFOs in red",
        details: "",
        options: &[OUTPUT],
        examples: &["zohmirka draw chain short.chain -o short.svg"],
        run: commands::draw::chain,
    },
    Command {
        name: "draw time",
        operands: &[one("CHAIN")],
        summary: "the clocks of a run as a picture (SVG): cells, firings, how full each FIFO is",
        details: "",
        options: &[
            CLOCKS,
            OUTPUT,
        ],
        examples: &["zohmirka draw time a.chain --from 5 --to 15 -o time.svg"],
        run: commands::draw::time,
    },
    Command {
        name: "help",
        operands: &[TOPIC],
        summary: "this list, or the page of a command",
        details: "",
        options: &[],
        examples: &["zohmirka help check"],
        run: commands::help::run,
    },
    Command {
        name: "man",
        operands: &[],
        summary: "the manual page, for man",
        details: "",
        options: &[OUTPUT],
        examples: &["zohmirka man -o zohmirka.1"],
        run: commands::help::manual,
    },
    Command {
        name: "completions",
        operands: &[SHELL],
        summary: "completions for a shell: bash or zsh",
        details: "",
        options: &[OUTPUT],
        examples: &["zohmirka completions bash -o zohmirka.bash"],
        run: commands::help::completions,
    },
];
