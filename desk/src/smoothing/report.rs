//! What standard error says of results.

use super::Smoothed;
use crate::csv::{Cells, Form, Map, Rim};
use crate::files;
use crate::place::Ran;
use crate::wording::{count, grouped};
use zohmirka::{Chain, Kernel};

/// What a run over a map did.
pub fn done(chain: &Chain, map: &Map, ran: Ran, form: &Form) -> String {
    let places: Vec<String> = chain.capacities().iter().map(u32::to_string).collect();
    let fifos = if places.is_empty() {
        "no FIFO".into()
    } else {
        format!("FIFOs {}", places.join(" "))
    };
    let rim = map.cells().len() - ran.firings as usize;
    let left = match form.rim {
        Rim::Keep => "as read",
        Rim::Empty => "empty",
    };
    format!(
        "{} smoothed, {} without a result ({left}); {fifos}; done after {}",
        count(ran.firings as usize, "cell"),
        grouped(rim as u128),
        count(ran.clocks as usize, "clock")
    )
}

/// Tells what the results of a chain's kernel may surprise with; the name is of what has the kernel.
pub fn remarks(name: &str, chain: &Chain, after: &Smoothed) {
    let kind = after.map.kind();
    let results = after.words.iter().flatten().map(|&word| kind.value(word));
    let not_finite = results.filter(|value| !value.is_finite()).count();
    if not_finite > 0 {
        files::note(&format!(
            "{name}: {} not finite (inf or nan)",
            count(not_finite, "result")
        ));
    }
    if kind == Cells::U32 && chain.kernel() != Kernel::Raw {
        files::note(&format!(
            "{name}: cells are words; the kernel takes them for the bits of f32 numbers"
        ));
    }
    if let Some(sum) = weights(chain).filter(|sum| (sum - 1.0).abs() > 1e-6) {
        files::note(&format!(
            "{name}: the kernel's weights sum to {sum}, so a level map does not stay level"
        ));
    }
}

/// What the weights of a kernel that adds sum to.
fn weights(chain: &Chain) -> Option<f32> {
    let references = chain.references() as f32;
    match chain.kernel() {
        Kernel::Scaled(factor) => Some(factor * references),
        Kernel::Blend { a, b } => Some(a + b * (references - 1.0)),
        _ => None,
    }
}
