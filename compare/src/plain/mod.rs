//! Straightforward fast programs in Rust, which the benchmarks time beside the
//! library. They share nothing with the second reader but the types of its
//! answers; tests/plain.rs has what they give compared with it.

mod colour_table;
mod colours;
mod listing;
mod rows;
mod structure;
mod table;
mod write;

pub use colour_table::colours_by_table;
pub use colours::colours;
pub use listing::fill;
pub use rows::{frame, pack};
pub use structure::{check, record};
pub use table::frame_by_table;
pub use write::write;
