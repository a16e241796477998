//! The commands, a file each.

pub mod bin;
pub mod cells;
pub mod check;
pub mod draw;
pub mod explain;
pub mod help;
pub mod pair;
pub mod plan;
pub mod request;
pub mod run;
pub mod smooth;
pub mod tidy;
pub mod windows;
