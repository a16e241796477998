//! What ends a command before it is done, with the exit status that says so.

pub type Result<T> = std::result::Result<T, Fault>;

#[derive(Clone, Debug, PartialEq, Eq)]
pub enum Fault {
    /// The library's no: refused, stalled, starved. Status 1.
    No(String),
    /// Usage, files, CSV, a failed write. Status 2.
    Trouble(String),
}

impl Fault {
    pub fn status(&self) -> u8 {
        match self {
            Fault::No(_) => 1,
            Fault::Trouble(_) => 2,
        }
    }

    pub fn text(&self) -> &str {
        match self {
            Fault::No(text) | Fault::Trouble(text) => text,
        }
    }
}

/// The end of a command in trouble.
pub fn trouble<T>(text: impl Into<String>) -> Result<T> {
    Err(Fault::Trouble(text.into()))
}
