//! Ours and the Rust mesher on one block: where they differ, and a smaller block that shows it.

pub mod difference;
pub mod ours;
pub mod shrink;
