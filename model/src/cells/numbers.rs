//! The numbers that each call can be answered with.

use crate::line::Call;
use crate::unit::Unit;

pub const NUMBER_ROWS: [&str; 14] = [
    "power",
    "setup",
    "out, no transfer open",
    "out, continuing",
    "in",
    "in3",
    "take",
    "offer",
    "status",
    "local",
    "reset",
    "suspend",
    "state",
    "more",
];

pub const NUMBERS: [u8; 15] = [0, 2, 3, 4, 5, 6, 7, 8, 9, 10, 11, 12, 13, 15, 16];

pub const NUMBER_NAMES: [&str; 15] = ["0", "2", "3", "4", "5", "6", "7", "8", "9", "10", "11", "12", "13", "15", "16"];

pub fn number_row(unit: &Unit, call: &Call) -> usize {
    match call {
        Call::Power(_) => 0,
        Call::Setup(..) => 1,
        Call::Out(_) => 2 + usize::from(unit.out_transfer.is_some()),
        Call::In(_) => 4,
        Call::In3(_) => 5,
        Call::Take(_) => 6,
        Call::Offer(_) => 7,
        Call::Status(_) => 8,
        Call::Local => 9,
        Call::Reset => 10,
        Call::Suspend => 11,
        Call::State => 12,
        Call::More => 13,
    }
}

pub fn number_allowed(row: usize, column: usize) -> bool {
    let numbers: &[u8] = match NUMBER_ROWS[row] {
        "power" => &[0, 3],
        "setup" => &[0, 3, 15],
        "out, no transfer open" => &[0, 2, 3, 4, 5, 6, 7, 8, 9, 10, 11, 12, 13],
        "out, continuing" => &[0, 3, 6, 11],
        "in" | "in3" => &[0, 2, 3, 4, 5],
        "take" | "offer" => &[0, 2, 3, 16],
        "status" | "local" => &[0, 2],
        _ => &[0],
    };
    numbers.contains(&NUMBERS[column])
}
