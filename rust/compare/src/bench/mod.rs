//! What the library costs beside `straight`, as Markdown tables.
pub mod cases;
pub mod clocks;
pub mod pairs;
pub mod program;
pub mod runs;
pub mod sheets;
pub mod table;
pub mod timing;
