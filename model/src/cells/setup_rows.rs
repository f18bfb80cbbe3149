//! The table of setup rows once more, for near misses, and what each row can answer.

use crate::unit::{BULK_IN, BULK_OUT, INTERRUPT_IN};

/// A row of 01's table of setup rows, written down once more for near misses.
pub struct SetupRow {
    pub name: &'static str,
    pub request_type: u8,
    pub request: u8,
    pub values: (u16, u16),
    pub indices: &'static [u16],
    pub length: u16,
}

const fn setup_row(
    name: &'static str,
    request_type: u8,
    request: u8,
    values: (u16, u16),
    indices: &'static [u16],
    length: u16,
) -> SetupRow {
    SetupRow { name, request_type, request, values, indices, length }
}

pub const ENDPOINTS: &[u16] = &[BULK_OUT, BULK_IN, INTERRUPT_IN];

#[rustfmt::skip]
pub const SETUP_ROWS: [SetupRow; 16] = [
    setup_row("INITIATE_ABORT_BULK_OUT", 0xA2, 1, (1, 255), &[BULK_OUT], 2),
    setup_row("CHECK_ABORT_BULK_OUT", 0xA2, 2, (0, 0), &[BULK_OUT], 8),
    setup_row("INITIATE_ABORT_BULK_IN", 0xA2, 3, (1, 255), &[BULK_IN], 2),
    setup_row("CHECK_ABORT_BULK_IN", 0xA2, 4, (0, 0), &[BULK_IN], 8),
    setup_row("INITIATE_CLEAR", 0xA1, 5, (0, 0), &[0], 1),
    setup_row("CHECK_CLEAR_STATUS", 0xA1, 6, (0, 0), &[0], 2),
    setup_row("GET_CAPABILITIES", 0xA1, 7, (0, 0), &[0], 24),
    setup_row("INDICATOR_PULSE", 0xA1, 64, (0, 0), &[0], 1),
    setup_row("READ_STATUS_BYTE", 0xA1, 128, (2, 127), &[0], 3),
    setup_row("REN_CONTROL", 0xA1, 160, (0, 1), &[0], 1),
    setup_row("GO_TO_LOCAL", 0xA1, 161, (0, 0), &[0], 1),
    setup_row("LOCAL_LOCKOUT", 0xA1, 162, (0, 0), &[0], 1),
    setup_row("CLEAR_FEATURE", 0x02, 1, (0, 0), ENDPOINTS, 0),
    setup_row("SET_FEATURE", 0x02, 3, (0, 0), ENDPOINTS, 0),
    setup_row("GET_STATUS", 0x82, 0, (0, 0), ENDPOINTS, 2),
    setup_row("SET_CONFIGURATION", 0x00, 9, (0, 1), &[0], 0),
];

pub const SET_CONFIGURATION: usize = 15;

impl SetupRow {
    pub fn packet(&self, value: u16, index: u16, length: u16) -> Vec<u8> {
        let mut packet = vec![self.request_type, self.request];
        for word in [value, index, length] {
            packet.extend_from_slice(&word.to_le_bytes());
        }
        packet
    }

    /// Which of bmRequestType, wValue, wIndex and wLength are as the row has them.
    pub fn fits(&self, packet: &[u8]) -> [bool; 4] {
        let word = |at: usize| u16::from_le_bytes([packet[at], packet[at + 1]]);
        [
            packet[0] == self.request_type,
            (self.values.0..=self.values.1).contains(&word(2)),
            self.indices.contains(&word(4)),
            word(6) == self.length,
        ]
    }
}

/// Columns of the table of setup rows: what the row answered, or what kept the packet from matching it.
#[rustfmt::skip]
pub const SETUP_COLUMNS: [&str; 15] = [
    "01", "02", "20", "80", "81", "82", "83", "empty", "running", "halted", "unconf", "type", "value", "index",
    "length",
];

pub const COLUMN_EMPTY: usize = 7;
pub const COLUMN_RUNNING: usize = 8;
pub const COLUMN_UNCONFIGURED: usize = 10;
pub const COLUMN_TYPE: usize = 11;
pub const COLUMN_VALUE: usize = 12;
pub const COLUMN_INDEX: usize = 13;
pub const COLUMN_LENGTH: usize = 14;

pub fn setup_allowed(row: usize, column: usize) -> bool {
    let answers: &[&str] = match SETUP_ROWS[row].name {
        "INITIATE_ABORT_BULK_OUT" | "INITIATE_ABORT_BULK_IN" => &["01", "80", "81", "83"],
        "CHECK_ABORT_BULK_OUT" => &["01", "82"],
        "CHECK_ABORT_BULK_IN" | "CHECK_CLEAR_STATUS" => &["01", "02", "82"],
        "INITIATE_CLEAR" => &["01", "83"],
        "CLEAR_FEATURE" | "SET_FEATURE" | "SET_CONFIGURATION" => &["empty"],
        "GET_STATUS" => &["running", "halted"],
        "READ_STATUS_BYTE" => &["01", "20"],
        _ => &["01"],
    };
    match column {
        COLUMN_UNCONFIGURED => row != SET_CONFIGURATION,
        COLUMN_TYPE.. => true,
        _ => answers.contains(&SETUP_COLUMNS[column]),
    }
}

#[cfg(test)]
mod tests {
    use super::*;
    use crate::unit::{Number, Unit};

    #[test]
    fn the_rows_written_here_and_those_of_the_unit_agree() {
        for request_type in [0x00, 0x02, 0x21, 0x22, 0x80, 0x82, 0xA1, 0xA2] {
            for request in 0..=255 {
                for value in [0, 1, 2, 3, 127, 128, 255, 256, 0x100, 0x8000] {
                    for index in [0, 1, 2, 3, 0x81, 0x82, 0x83, 0x84, 0x101, 0x182, 0x183] {
                        for length in [0, 1, 2, 3, 8, 9, 24, 0x100, 0x101] {
                            let row =
                                SetupRow { request_type, request, name: "", values: (0, 0), indices: &[], length };
                            let packet = row.packet(value, index, length);
                            let (mut unit, _) = Unit::power_on(64);
                            unit.configured = true;
                            let number = unit.setup(&packet, &mut [0; 24]).number;
                            let found =
                                SETUP_ROWS.iter().any(|row| row.request == request && row.fits(&packet) == [true; 4]);
                            assert_eq!(found, number == Number::Done, "{packet:02x?}");
                        }
                    }
                }
            }
        }
    }
}
