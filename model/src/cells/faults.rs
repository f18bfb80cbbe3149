//! The faults of a packet on Bulk-OUT, each judged for itself: of a header, of a continuing packet, and the reserved places.

use super::alignment_place;
use crate::unit::{Unit, HEADER, STORE};

/// "a header then goes 6, 7, 8, 9, 10, 13, 12, 11", and then none: "14 is no longer given" (02, 2)
pub const FAULTS: [u8; 8] = [6, 7, 8, 9, 10, 13, 12, 11];
pub const FAULT_NAMES: [&str; 8] = ["6", "7", "8", "9", "10", "13", "12", "11"];

/// Which pairs of faults one header can have. On the diagonal the fault is the only one.
pub fn pair_allowed(row: usize, column: usize) -> bool {
    let seconds: &[u8] = match FAULTS[row] {
        6 => &[6, 8, 9, 10, 13, 12, 11],
        7 => &[7, 8, 9, 10, 13, 12],
        8 => &[8, 9, 10, 13, 12, 11],
        // With an unknown MsgID only byte 3 is known to be reserved.
        9 => &[9, 10],
        10 => &[10, 13, 12, 11],
        // 13 is about a REQUEST or a TRIGGER, 12 about a message.
        13 => &[13, 11],
        12 => &[12, 11],
        _ => &[11],
    };
    seconds.contains(&FAULTS[column])
}

/// Every fault of a packet that begins a transfer, each judged for itself.
pub fn header_faults(unit: &Unit, packet: &[u8]) -> [bool; 8] {
    let length = packet.len();
    let id = packet[0];
    let known = matches!(id, 1 | 2 | 128);
    let size = (length >= 8).then(|| u64::from(u32::from_le_bytes([packet[4], packet[5], packet[6], packet[7]])));
    let unfinished = unit.message_unfinished();
    let reserved = if length >= HEADER && known {
        reserved_places(packet).iter().any(|&place| place) || (id != 128 && size == Some(0))
    } else {
        length >= 4 && packet[3] != 0
    };
    let wrong_length = length >= HEADER
        && match (id, alignment_place(unit, packet)) {
            (2 | 128, _) => length != HEADER,
            (_, Some(place)) => wrong_end(unit, length, place.end),
            _ => false,
        };
    [
        length % 4 != 0,
        length == 4 || length == 8,
        length >= 3 && (packet[1] == 0 || packet[2] != 255 - packet[1]),
        !known,
        reserved,
        (id == 2 && (unit.in_transfer.is_some() || unfinished)) || (id == 128 && unfinished),
        id == 1 && size.is_some_and(|size| unit.held() as u64 + size > STORE as u64),
        wrong_length,
    ]
}

/// A packet that goes on behind its alignment bytes, or is shorter than P and ends before them.
fn wrong_end(unit: &Unit, length: usize, end: u64) -> bool {
    length as u64 > end || (length < unit.packet_size && (length as u64) < end)
}

/// Every fault of a packet that continues a transfer: 6, 11.
pub const CONTINUING: [u8; 2] = [6, 11];
pub const CONTINUING_NAMES: [&str; 2] = ["6", "11"];

pub fn continuing_faults(unit: &Unit, packet: &[u8]) -> [bool; 2] {
    let length = packet.len();
    let wrong_length = alignment_place(unit, packet).is_some_and(|place| wrong_end(unit, length, place.end));
    [length % 4 != 0, wrong_length]
}

pub fn continuing_allowed(row: usize, column: usize) -> bool {
    // A length that is no multiple of 4 is a wrong one too, so 6 is never alone.
    matches!((CONTINUING[row], CONTINUING[column]), (6 | 11, 11))
}

pub const RESERVED_ROWS: [&str; 3] = ["DEV_DEP_MSG_OUT", "REQUEST", "TRIGGER"];

/// Byte 3, the bytes 4 to 7, the bits of byte 8, the bytes 8 to 11 of a TRIGGER or 9 to 11 of the others.
pub const RESERVED_COLUMNS: [&str; 17] =
    ["byte 3", "4", "5", "6", "7", "D0", "D1", "D2", "D3", "D4", "D5", "D6", "D7", "byte 8", "9", "10", "11"];

pub fn reserved_allowed(row: usize, column: usize) -> bool {
    match (RESERVED_ROWS[row], RESERVED_COLUMNS[column]) {
        (_, "byte 3") => true,
        ("TRIGGER", bit) => !bit.starts_with('D'),
        (_, "4" | "5" | "6" | "7" | "byte 8") => false,
        ("DEV_DEP_MSG_OUT", "D0") | ("REQUEST", "D1" | "9") => false,
        _ => true,
    }
}

/// The byte, and the bits of it, that a column stands for.
pub fn reserved_place(column: usize) -> (usize, u8) {
    match column {
        0 => (3, 0xFF),
        1..=4 => (3 + column, 0xFF),
        5..=12 => (8, 1 << (column - 5)),
        _ => (column - 5, 0xFF),
    }
}

/// Which reserved places of a header with a known MsgID are not 0.
pub fn reserved_places(packet: &[u8]) -> [bool; 17] {
    let row = match packet[0] {
        1 => 0,
        2 => 1,
        _ => 2,
    };
    let mut places = [false; 17];
    for (column, place) in places.iter_mut().enumerate() {
        let (at, bits) = reserved_place(column);
        *place = reserved_allowed(row, column) && packet[at] & bits != 0;
    }
    places
}
