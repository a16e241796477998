//! Files read whole, and lines on standard error.
use crate::fault::{trouble, Result};
use std::fs::File;
use std::io::{self, Read, Write};

/// What a file is called in messages.
pub fn shown(name: &str) -> &str {
    if name == "-" {
        "standard input"
    } else {
        name
    }
}

/// A file's bytes; `-` is standard input.
pub fn read(name: &str) -> Result<Vec<u8>> {
    let mut bytes = Vec::new();
    let done = if name == "-" {
        io::stdin().lock().read_to_end(&mut bytes)
    } else {
        File::open(name).and_then(|mut file| file.read_to_end(&mut bytes))
    };
    match done {
        Ok(_) => Ok(bytes),
        Err(error) => trouble(format!("{}: {}", shown(name), reason(&error))),
    }
}

/// The system's words for what went wrong, without its number.
pub fn reason(error: &io::Error) -> String {
    let text = error.to_string();
    match text.split_once(" (os error") {
        Some((words, _)) => words.to_lowercase(),
        None => text,
    }
}

/// A line on standard error.
pub fn note(text: &str) {
    // Where standard error is closed there is nobody to tell.
    let _ = writeln!(io::stderr().lock(), "zohmirka: {text}");
}
