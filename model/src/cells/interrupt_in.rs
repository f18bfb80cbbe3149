//! Where Interrupt-IN stands, what comes to it, and the refusals of its poll.

use super::Kind;
use crate::line::Answered;
use crate::unit::{Unit, NOTIFY, SERVICE_REQUEST};

/// Where Interrupt-IN stands: `empty`, the packet of a `request` or of a `read` waits, a request is `kept` behind it, or
/// was kept and is taken `back`, bit 6 set off; and the same while 0x83 is halted.
#[rustfmt::skip]
pub const INTERRUPT_COLUMNS: [&str; 10] = [
    "empty", "request", "read", "kept", "back",
    "halted", "halted+request", "halted+read", "halted+kept", "halted+back",
];

/// None for an unconfigured unit, which has only one such point. That a request was taken back the unit does not tell.
pub fn interrupt_column(unit: &Unit, taken_back: bool) -> Option<usize> {
    if !unit.configured {
        return None;
    }
    let point = match unit.waiting {
        None => 0,
        Some(_) if unit.kept => 3,
        Some(_) if taken_back => 4,
        Some([SERVICE_REQUEST, _]) => 1,
        Some(_) => 2,
    };
    Some(point + if unit.interrupt_halted { 5 } else { 0 })
}

/// How a packet came to wait: a service request with none waiting, one that was kept, or READ_STATUS_BYTE.
#[derive(Clone, Copy, Debug, PartialEq, Eq)]
pub enum Origin {
    Request,
    Kept,
    Read,
}

/// What comes to Interrupt-IN, with 0x83 running unless it is said.
#[rustfmt::skip]
pub const INTERRUPT_EVENTS: [&str; 27] = [
    "in3 brings a request", "in3 brings a kept request", "in3 brings a read",
    "in3 queues the kept request", "in3 queues nothing, the request taken back",
    "in3 is 3", "in3 is 4, a packet waits", "in3 is 4, none waits", "in3 is 5",
    "request queued", "request kept", "request made again", "request queued, halted", "request kept, halted",
    "bit 6 set off, a request kept", "bit 6 off, a packet waits", "bit 6 off, none waits",
    "READ_STATUS_BYTE 01", "READ_STATUS_BYTE 20", "READ_STATUS_BYTE 01, halted", "READ_STATUS_BYTE 20, halted",
    "SET_FEATURE 0x83", "SET_FEATURE 0x83, halted", "CLEAR_FEATURE 0x83", "CLEAR_FEATURE 0x83, halted",
    "GET_STATUS 0x83", "GET_STATUS 0x83, halted",
];

/// The events that a call is, one or two.
pub fn interrupt_events(
    before: &Unit,
    kind: Kind,
    answered: &Answered,
    origin: Option<Origin>,
    taken_back: bool,
    after: &Unit,
) -> Vec<&'static str> {
    let halted = before.interrupt_halted;
    let waits = before.waiting.is_some();
    let number = answered.number as u8;
    if number == 2 || number == 15 {
        return Vec::new();
    }
    match kind {
        Kind::In3 | Kind::In3Small => match number {
            0 => {
                let mut events = vec![match origin {
                    Some(Origin::Request) => "in3 brings a request",
                    Some(Origin::Kept) => "in3 brings a kept request",
                    _ => "in3 brings a read",
                }];
                if after.waiting.is_some() {
                    events.push("in3 queues the kept request");
                } else if taken_back {
                    events.push("in3 queues nothing, the request taken back");
                }
                events
            }
            3 => vec!["in3 is 3"],
            4 if waits => vec!["in3 is 4, a packet waits"],
            4 => vec!["in3 is 4, none waits"],
            _ => vec!["in3 is 5"],
        },
        Kind::ServiceRequest => vec![match (waits, halted) {
            _ if before.kept || taken_back => "request made again",
            (false, false) => "request queued",
            (true, false) => "request kept",
            (false, true) => "request queued, halted",
            (true, true) => "request kept, halted",
        }],
        Kind::Status => vec![match waits {
            _ if before.kept => "bit 6 set off, a request kept",
            true => "bit 6 off, a packet waits",
            false => "bit 6 off, none waits",
        }],
        Kind::ReadStatusByte => vec![match (waits, halted) {
            (false, false) => "READ_STATUS_BYTE 01",
            (true, false) => "READ_STATUS_BYTE 20",
            (false, true) => "READ_STATUS_BYTE 01, halted",
            (true, true) => "READ_STATUS_BYTE 20, halted",
        }],
        Kind::SetFeatureInterrupt => vec![if halted { "SET_FEATURE 0x83, halted" } else { "SET_FEATURE 0x83" }],
        Kind::ClearFeatureInterrupt => vec![if halted { "CLEAR_FEATURE 0x83, halted" } else { "CLEAR_FEATURE 0x83" }],
        Kind::GetStatusInterrupt => vec![if halted { "GET_STATUS 0x83, halted" } else { "GET_STATUS 0x83" }],
        _ => Vec::new(),
    }
}

/// "polling 0x83 goes 1, 2, 3 (buffer under 2), 4 halted, 5 empty"
pub const POLL_REFUSALS: [u8; 4] = [2, 3, 4, 5];
pub const POLL_REFUSAL_NAMES: [&str; 4] = ["2", "3", "4", "5"];

/// Which pairs of refusals a poll of 0x83 can have. On the diagonal the refusal is the only one.
pub fn poll_pair_allowed(row: usize, column: usize) -> bool {
    let seconds: &[u8] = match POLL_REFUSALS[row] {
        // An unconfigured unit is not halted and has no packet.
        2 => &[3, 5],
        3 => &[3, 4, 5],
        4 => &[4, 5],
        _ => &[5],
    };
    seconds.contains(&POLL_REFUSALS[column])
}

/// Every refusal of a poll of 0x83, each judged for itself.
pub fn poll_refusals(unit: &Unit, buffer: usize) -> [bool; 4] {
    [!unit.configured, buffer < NOTIFY, unit.interrupt_halted, unit.waiting.is_none()]
}

/// The status bytes with bit 6 off, numbered from 0 to 127, and their numbers.
pub fn status_byte(number: usize) -> u8 {
    (number & 0x3F | (number & 0x40) << 1) as u8
}

pub fn status_number(status: u8) -> usize {
    usize::from(status & 0x3F | (status & 0x80) >> 1)
}

#[cfg(test)]
mod tests {
    use super::*;
    use crate::unit::BIT_6;

    #[test]
    fn the_status_bytes_without_bit_6_have_numbers() {
        for number in 0..128 {
            assert_eq!(status_byte(number) & BIT_6, 0);
            assert_eq!(status_number(status_byte(number)), number);
            assert_eq!(status_number(status_byte(number) | BIT_6), number);
        }
    }
}
