//! What the traffic of a comparison has touched, cell by cell.

mod alignment;
mod bulk_in;
mod bulk_out;
mod grid;
mod interrupt_in;
mod observe;
mod report;
mod setup;
mod sweep;
mod thermostat;

use crate::cells::*;
use crate::unit::STORE;
use alignment::OldBytes;
use grid::Grid;
use std::collections::HashMap;
use sweep::Sweep;

/// With fewer calls empty cells are only reported.
pub const ENOUGH_CALLS: u64 = 200_000;

pub struct Coverage {
    /// Lines that are calls on the unit, and those with `state` or `more`, which are none.
    pub calls: u64,
    pub states: u64,
    pub numbers: Grid,
    pub setup_rows: Grid,
    pub splits: Grid,
    pub out_points: Grid,
    pub in_points: Grid,
    pub interrupt_points: Grid,
    pub interrupt_events: Grid,
    pub poll_refusals: Grid,
    pub remote: Grid,
    pub header_faults: Grid,
    pub continuing_faults: Grid,
    pub reserved: Grid,
    pub boundaries: Grid,
    pub lines: Grid,
    boundary_rows: HashMap<&'static str, usize>,
    pub messages: [Sweep; 2],
    pub too_long: [Sweep; 2],
    pub replies: [Sweep; 2],
    pub replies_refused: Sweep,
    pub closings: [Sweep; 2],
    pub out_counts: [Sweep; 2],
    pub in_counts: [Sweep; 2],
    /// A clear or a halt after so many packets of a transfer, in the order of `INTERRUPTIONS`.
    pub interrupted: Vec<[Sweep; 2]>,
    /// A 1st, 2nd and 3rd alignment byte.
    pub alignment: [Sweep; 3],
    /// Bits of a TransferSize, and of the numbers of a setup packet.
    pub bits_too_long: Sweep,
    pub bits_asked: Sweep,
    pub bits_of_no_row: Sweep,
    pub tags: Sweep,
    pub ids_refused: Sweep,
    pub status_tags: Sweep,
    pub status_tags_busy: Sweep,
    pub bytes_read: Sweep,
    pub bytes_requested: Sweep,
    pub bytes_kept: Sweep,
    pub term_chars: Sweep,
    old_bytes: OldBytes,
    /// How the packet that waits came to wait.
    origin: Option<Origin>,
    /// A request was kept behind the packet that waits, and a status byte with bit 6 off took it back.
    pub taken_back: bool,
    /// The call before was a poll of 0x83 that queued a kept request, or a READ_STATUS_BYTE answered 01.
    kept_just_queued: bool,
    read_just_queued: bool,
    /// The remote/local event of the call before, to be counted where `state` follows it.
    remote_event: Option<(usize, usize)>,
}

impl Coverage {
    pub fn new() -> Coverage {
        let kinds: Vec<&str> = KINDS.iter().map(|(_, name)| *name).collect();
        let rows: Vec<&str> = SETUP_ROWS.iter().map(|row| row.name).collect();
        Coverage {
            calls: 0,
            states: 0,
            numbers: Grid::new("call x number", &NUMBER_ROWS, &NUMBER_NAMES, number_allowed),
            setup_rows: Grid::new(
                "setup row x status, or the one field that is wrong (15)",
                &rows,
                &SETUP_COLUMNS,
                setup_allowed,
            ),
            splits: Grid::new("call x split state", &kinds, &SPLIT_COLUMNS, split_allowed),
            out_points: Grid::new("call x point of Bulk-OUT", &kinds, &OUT_COLUMNS, out_allowed),
            in_points: Grid::new("call x point of Bulk-IN", &kinds, &IN_COLUMNS, |_, _| true),
            interrupt_points: Grid::new("call x point of Interrupt-IN", &kinds, &INTERRUPT_COLUMNS, |_, _| true),
            interrupt_events: Grid::new(
                "event of Interrupt-IN x split state",
                &INTERRUPT_EVENTS,
                &SPLIT_COLUMNS,
                |_, _| true,
            ),
            poll_refusals: Grid::new(
                "in3: refusal answered x refusal also there",
                &POLL_REFUSAL_NAMES,
                &POLL_REFUSAL_NAMES,
                poll_pair_allowed,
            ),
            remote: Grid::new(
                "remote/local x event, with `state` right after it",
                &REMOTE_ROWS,
                &REMOTE_EVENTS,
                |_, _| true,
            ),
            header_faults: Grid::new(
                "header: fault answered x fault also there",
                &FAULT_NAMES,
                &FAULT_NAMES,
                pair_allowed,
            ),
            continuing_faults: Grid::new(
                "continuing packet: fault answered x fault also there",
                &CONTINUING_NAMES,
                &CONTINUING_NAMES,
                continuing_allowed,
            ),
            reserved: Grid::new(
                "the one reserved place that is not 0",
                &RESERVED_ROWS,
                &RESERVED_COLUMNS,
                reserved_allowed,
            ),
            boundaries: Grid::new("boundary x P", BOUNDARIES, &["64", "512"], |_, _| true),
            lines: Grid::new("lines", LINES, &["lines"], |_, _| true),
            boundary_rows: BOUNDARIES.iter().enumerate().map(|(row, name)| (*name, row)).collect(),
            messages: Sweep::for_each_size("messages taken of 1 to 1,024 bytes", [STORE, STORE]),
            too_long: Sweep::for_each_size("TransferSizes 1,025 to 1,100 that are 12", [76, 76]),
            replies: Sweep::for_each_size("replies of 1 to 1,024 bytes sent in one transfer", [STORE, STORE]),
            replies_refused: Sweep::new("replies of 1,025 to 1,100 bytes that are 3", 76),
            closings: Sweep::for_each_size("closing empty packets, 12 + N = k P", [16, 2]),
            out_counts: Sweep::for_each_size("counts of abort-OUT", [16, 2]),
            in_counts: Sweep::for_each_size("counts of abort-IN", [17, 3]),
            interrupted: INTERRUPTIONS
                .iter()
                .map(|(interruption, title)| {
                    // No OUT transfer is open before its first packet.
                    let packets = if interrupts_out(*interruption) { [16, 2] } else { [17, 3] };
                    Sweep::for_each_size(title, packets)
                })
                .collect(),
            alignment: ALIGNMENT_PLACES
                .map(|place| Sweep::new(&format!("values accepted of a {place} alignment byte"), 256)),
            bits_too_long: Sweep::new("bits of a TransferSize that alone make it 12", 32 - FIRST_TOO_LONG),
            bits_asked: Sweep::new("bits of a TransferSize that a REQUEST asks for", 32),
            bits_of_no_row: Sweep::new("bits of wValue, wIndex and wLength that alone are 15", SETUP_BITS),
            tags: Sweep::new("tags accepted", 255),
            ids_refused: Sweep::new("MsgIDs that are 9", 253),
            status_tags: Sweep::new("READ_STATUS_BYTE tags polled on 0x83", 126),
            status_tags_busy: Sweep::new("READ_STATUS_BYTE tags that are 20", 126),
            bytes_read: Sweep::new("status bytes that READ_STATUS_BYTE brings", 128),
            bytes_requested: Sweep::new("status bytes that a service request brings", 128),
            bytes_kept: Sweep::new("status bytes that a kept request brings", 128),
            term_chars: Sweep::new("TermChars that end a transfer", 256),
            old_bytes: OldBytes::default(),
            origin: None,
            taken_back: false,
            kept_just_queued: false,
            read_just_queued: false,
            remote_event: None,
        }
    }
}
