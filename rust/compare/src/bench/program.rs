//! The program `run` on case 1 beside the plain Rust one.
use super::cases::planned_chains;
use super::table::{ratio, Table};
use super::timing::least_of_programs;
use crate::saved;
use std::fs::File;
use std::path::{Path, PathBuf};
use std::process::{Command, Stdio};
use straight::sheet::{chain_text, push_line};

fn case_1() -> PathBuf {
    let (_, chain) = &planned_chains()[0];
    let mut text = chain_text(chain);
    for i in 0..768 * 1024u32 {
        let mut bytes = vec![5];
        bytes.extend(i.wrapping_mul(2_654_435_769).to_be_bytes());
        push_line(&mut text, &bytes);
    }
    let name = saved("case-1.sheet");
    std::fs::write(&name, text).expect("target/compare can be written");
    name
}

fn go(program: &Path, input: &Path, output: Stdio) {
    let status = Command::new(program)
        .stdin(File::open(input).expect("the sheet is there"))
        .stdout(output)
        .status();
    let status = status.unwrap_or_else(|error| panic!("{}: {error}", program.display()));
    assert!(status.code().is_some(), "{} was killed", program.display());
}

/// `library` and `straight` are the two programs.
pub fn program(library: &Path, straight: &Path) {
    if !library.is_file() {
        println!(
            "\nThe program run is left out: {} is not there.",
            library.display()
        );
        return;
    }
    let input = case_1();
    let outputs = [library, straight].map(|program| {
        let name = saved("case-1.out");
        let file = File::create(&name).expect("target/compare can be written");
        go(program, &input, Stdio::from(file));
        std::fs::read(&name).expect("the output is there")
    });
    assert!(outputs[0] == outputs[1], "the programs write the same");
    let size = std::fs::metadata(&input).expect("the sheet is there").len() as usize;
    let both = (size + outputs[0].len()) as f64;
    let [ours, theirs] =
        least_of_programs([&mut || go(library, &input, Stdio::null()), &mut || {
            go(straight, &input, Stdio::null())
        }]);
    let mut table = Table::new(&["program", "ms", "MB/s", "straight / library"]);
    table.row(vec![
        "run".to_string(),
        format!("{:.1}", ours / 1e6),
        format!("{:.0}", both * 1000.0 / ours),
        ratio(theirs / ours, true),
    ]);
    table.row(vec![
        "straight's run".to_string(),
        format!("{:.1}", theirs / 1e6),
        format!("{:.0}", both * 1000.0 / theirs),
        String::new(),
    ]);
    table.print(&format!(
        "The program run on case 1: {:.1} MB read from a file, {:.1} MB written to /dev/null.",
        size as f64 / 1e6,
        outputs[0].len() as f64 / 1e6
    ));
}
