//! Times the library beside `straight`. ZOHMIRKA_RUN names the program `run`; target/bin/run where it is not set. Words pick tables: planned, others, references,
//! skewed, pairs, empty, sheets, program. `alone NAME WAY GOES` makes one way on a chain of planned, others or skewed and times nothing.
use compare::bench::{clocks, pairs, program, sheets};
use std::path::{Path, PathBuf};

fn main() {
    let words: Vec<String> = std::env::args().skip(1).collect();
    if words.first().is_some_and(|word| word == "alone") {
        let [_, name, way, goes] = &words[..] else {
            panic!("alone NAME WAY GOES");
        };
        let goes = goes.parse().expect("a number");
        let clocks = clocks::alone(name, way, goes);
        println!("{clocks} clocks or firings");
        return;
    }
    let wanted = |name: &str| words.is_empty() || words.iter().any(|word| word == name);
    println!("Processor time, the least of several goes each, in which the ways take turns. A ratio that misses its goal is marked by `!`.");
    if wanted("planned") {
        clocks::planned();
    }
    if wanted("others") {
        clocks::others();
    }
    if wanted("references") {
        clocks::references();
    }
    if wanted("skewed") {
        clocks::skewed();
    }
    if wanted("pairs") {
        pairs::two_kernels();
    }
    if wanted("empty") {
        clocks::empty_calls();
    }
    if wanted("sheets") {
        sheets::sheets();
    }
    if wanted("program") {
        let top = Path::new(env!("CARGO_MANIFEST_DIR")).join("../..");
        let library = match std::env::var_os("ZOHMIRKA_RUN") {
            Some(name) => PathBuf::from(name),
            None => top.join("target/bin/run"),
        };
        let mut straight = std::env::current_exe().expect("the program has a path");
        straight.set_file_name("run");
        program::program(&library, &straight);
    }
}
