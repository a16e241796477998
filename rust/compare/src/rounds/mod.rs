//! The kinds of rounds. A round is fixed by the seed and its number.
mod any_chain;
mod any_pair;
mod author;
mod call;
mod calls;
mod pair_call;
mod pair_loops;
mod pairs;
mod sheets;
mod steps;

use crate::round::{Differs, Round};

type Kind = fn(&mut Round) -> Result<(), Differs>;

pub const KINDS: [(&str, Kind); 12] = [
    ("a request sheet planned", sheets::plan),
    ("a window by name beside its offsets", sheets::by_name),
    ("a chain sheet judged and read", sheets::chain),
    ("run calls on a chain", calls::calls),
    ("run calls on any words", any_chain::calls),
    ("any words judged and written", any_chain::written),
    ("a plan beside the author's loop", author::words),
    ("a plan beside its steps", steps::steps),
    ("two windows planned", pairs::planned),
    ("run calls of a pair", pairs::calls),
    ("any words planned and run as a pair", any_pair::calls),
    ("a pair beside two loops", pair_loops::words),
];
