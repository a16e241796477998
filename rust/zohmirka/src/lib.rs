//! Plans and runs reuse chains: a safe interface over libzohmirka.a. Its functions take any bytes, words and lengths (c/zohmirka.h), so that nothing here checks
//! what it hands over. The version of the library is looked at once, in the first call. There is no other state than what is lent: calls may run in several
//! threads at the same time.
//!
//! ```
//! let sheet = zohmirka::plan(b"010100000005\n020000\n020003\n0400\n").unwrap();
//! let chain = zohmirka::Chain::read(&sheet).unwrap();
//! let mut state = zohmirka::State::fresh();
//! let mut store = vec![0; chain.places()];
//! let mut out = [0; 4];
//! let outcome = chain.run(&mut state, &mut store, &[1, 2, 3, 4, 5], &mut out, u32::MAX).unwrap();
//! assert_eq!(outcome, zohmirka::Outcome::Done(zohmirka::Counts { cells: 5, firings: 2, clocks: 5 }));
//! assert_eq!(out, [4, 1, 5, 2]);
//! ```
//!
//! On a skewed grid each row has its own first column and length. Here all begin in column 2, the first has two cells and the others one, and each cell is taken
//! together with the one above it:
//!
//! ```
//! let sheet = zohmirka::plan(b"090003000200020002000100020001\n0200000000\n02FFFF0000\n0400\n").unwrap();
//! let chain = zohmirka::Chain::read(&sheet).unwrap();
//! assert_eq!(chain.skewed(), Some(vec![(2, 2), (2, 1), (2, 1)]));
//! let mut state = zohmirka::State::fresh();
//! let mut store = vec![0; chain.places()];
//! let mut out = [0; 4];
//! let outcome = chain.run(&mut state, &mut store, &[1, 2, 3, 4], &mut out, u32::MAX).unwrap();
//! assert_eq!(outcome, zohmirka::Outcome::Done(zohmirka::Counts { cells: 4, firings: 2, clocks: 5 }));
//! assert_eq!(out, [3, 1, 4, 3]);
//! ```
//!
//! A request may be built instead of written (`Request`), and a chain says what it is (`Chain::sizes`, `offsets`, `kernel` and so on). Two kernels may share a chain
//! (`Pair`).
mod chain;
mod kernel;
pub mod native;
mod pair;
mod refusal;
mod request;
mod run;
mod same;

pub use chain::Chain;
pub use kernel::Kernel;
pub use pair::{Pair, Window};
pub use refusal::Refusal;
pub use request::{NamedWindow, Request};
pub use run::{run, Counts, Outcome, State};

use refusal::accepted;
use std::sync::Once;

/// The version of the interface that this crate is written for.
pub const VERSION: u32 = 5;
/// No chain sheet has more bytes.
pub const SHEET_BYTES: usize = 4919;
/// No accepted chain needs more words of store.
pub const STORE_WORDS: usize = 16384;
/// No firing of an accepted chain writes more words.
pub const FIRING_WORDS: usize = 32;
pub const STATE_WORDS: usize = 33;
pub const CHAIN_WORDS: usize = 212;
pub const WINDOW_WORDS: usize = 132;
/// No accepted chain has more numbers of rows beside its words.
pub const ROW_NUMBERS: usize = 1024;

/// The version of the library that is linked.
pub fn version() -> u32 {
    native::version()
}

fn require(version: u32) {
    assert!(version == VERSION, "libzohmirka.a has version {version} of the interface, and this crate is written for {VERSION}");
}

/// Panics where the library that is linked is of another version. It looks once, in the first call of a function that is not one of `native`.
fn checked() {
    static ONCE: Once = Once::new();
    ONCE.call_once(|| require(version()));
}

/// The chain sheet of a request sheet.
pub fn plan(request: &[u8]) -> Result<Vec<u8>, Refusal> {
    let mut sheet = vec![0; SHEET_BYTES];
    let bytes = plan_into(request, &mut sheet)?;
    sheet.truncate(bytes);
    Ok(sheet)
}

/// The same into a lent slice; answers how many bytes were written.
pub fn plan_into(request: &[u8], sheet: &mut [u8]) -> Result<usize, Refusal> {
    checked();
    let answer = native::plan(request, sheet);
    accepted(answer.refusal)?;
    Ok(answer.bytes)
}

/// Judges a chain sheet.
pub fn judge(sheet: &[u8]) -> Result<(), Refusal> {
    checked();
    accepted(native::judge(sheet))
}

#[cfg(test)]
mod tests {
    use super::*;

    #[test]
    #[should_panic(expected = "version 6 of the interface")]
    fn another_version_is_not_taken() {
        require(VERSION + 1);
    }
}
