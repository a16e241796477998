//! Pictures in SVG 1.1, a file each: maps as heat, chains, runs clock by clock.

mod axis;
mod bars;
mod base64;
mod cells;
mod chain;
mod colour;
mod digits;
mod heat;
mod layout;
mod legend;
mod page;
mod png;
mod stage;
mod text;
mod time;

pub use chain::{chain, ChainPicture};
pub use heat::{heat, Cell, Heat, Panel, Scale};
pub use time::{time, Clock, Timeline};
