//! The line protocol of `replay`: one call a line, one answer a line.

mod answered;
mod call;
mod play;
mod player;

pub use answered::Answered;
pub use call::Call;
pub use play::play;
pub use player::{Player, Unsound};

/// A longer line, its newline not counted, is skipped to its end and cannot be read.
pub const LONGEST_LINE: usize = 4096;
pub const LARGEST_P: u64 = 65_535;
pub const LARGEST_BUFFER: u64 = 2_048;
