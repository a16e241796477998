//! Windows by name (document 02, request 1), worked out from what the names mean.
use crate::types::{Refusal, Window};

/// The window of a name, on a grid of so many dimensions: points of the cube with entries 1, 0 and -1, falling.
pub fn named(name: u8, dims: usize) -> Result<Window, Refusal> {
    /// By how many of a point's entries are not 0.
    type Rule = fn(usize) -> bool;
    let (due, has): (usize, Rule) = match name {
        1 => (2, |steps| steps < 2),
        2 => (2, |steps| steps == 1),
        3 => (2, |_| true),
        4 => (3, |steps| steps < 2),
        5 => (3, |steps| steps < 3),
        _ => return Err(Refusal::BadName),
    };
    if dims != due {
        return Err(Refusal::BadName);
    }
    let mut points = vec![vec![]];
    for _ in 0..dims {
        points = points
            .into_iter()
            .flat_map(|point| [1, 0, -1].map(|entry| [&point[..], &[entry]].concat()))
            .collect();
    }
    points.retain(|point| has(point.iter().filter(|&&entry| entry != 0).count()));
    let offsets: Vec<&[i16]> = points.iter().map(|point| &point[..]).collect();
    Ok(Window::new(&offsets))
}
