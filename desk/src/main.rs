#![forbid(unsafe_code)]
use std::process::ExitCode;

fn main() -> ExitCode {
    let words: Option<Vec<String>> = std::env::args_os()
        .skip(1)
        .map(|word| word.into_string().ok())
        .collect();
    ExitCode::from(desk::status(words))
}
