//! The cells of the coverage: what a call is, where the unit stands, and which of the pairs the papers allow.
//!
//! All of it is told from a call and a unit, not from what the traffic meant to send. What the unit's rules say is
//! written down here once more, each rule for itself, so that a slip in one of the two shows.

mod alignment;
mod bits;
mod boundaries;
mod faults;
mod interrupt_in;
mod kinds;
mod numbers;
mod points;
mod remote;
mod setup_rows;

pub use alignment::*;
pub use bits::*;
pub use boundaries::*;
pub use faults::*;
pub use interrupt_in::*;
pub use kinds::*;
pub use numbers::*;
pub use points::*;
pub use remote::*;
pub use setup_rows::*;

use crate::unit::Unit;

/// 0 for P = 64, 1 for P = 512
pub fn size_column(unit: &Unit) -> usize {
    usize::from(unit.packet_size == 512)
}
