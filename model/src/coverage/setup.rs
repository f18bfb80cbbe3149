//! A setup packet is counted.

use super::Coverage;
use crate::cells::*;
use crate::line::{Answered, Call};
use crate::unit::{Number, Split, Unit, HEADER, INTERRUPT_IN};

impl Coverage {
    pub(super) fn observe_setup(
        &mut self,
        before: &Unit,
        kind: Kind,
        packet: &[u8],
        buffer: usize,
        answered: &Answered,
    ) {
        let refused = answered.number == Number::WrongSize;
        self.boundaries(
            before,
            &[
                (packet.is_empty(), "setup packet of 0 bytes is 3"),
                (packet.len() == 7, "setup packet of 7 bytes is 3"),
                (packet.len() == 9, "setup packet of 9 bytes is 3"),
                (packet.len() == 8 && buffer == 0, "control buffer 0 is 3"),
                (packet.len() == 8 && buffer == 23, "control buffer 23 is 3"),
                (!refused && buffer == 24, "control buffer 24"),
                (!refused && buffer == 25, "control buffer 25"),
            ],
        );
        if packet.len() != 8 {
            return;
        }
        if buffer == 23 && Kind::of(before, &Call::Setup(packet.to_vec(), 24)) == Some(Kind::NoRow) {
            self.boundary(before, "control buffer 23 and no row is 3");
        }
        if refused {
            return;
        }
        for (row, entry) in SETUP_ROWS.iter().enumerate() {
            if entry.request != packet[1] {
                continue;
            }
            let column = match entry.fits(packet) {
                [true, true, true, true] => match answered.bytes.as_deref() {
                    None => Some(COLUMN_UNCONFIGURED),
                    Some([]) => Some(COLUMN_EMPTY),
                    Some([halted, ..]) if entry.name == "GET_STATUS" => Some(COLUMN_RUNNING + usize::from(*halted)),
                    Some([status, ..]) => SETUP_COLUMNS.iter().position(|column| *column == format!("{status:02x}")),
                },
                [false, true, true, true] => Some(COLUMN_TYPE),
                [true, false, true, true] => Some(COLUMN_VALUE),
                [true, true, false, true] => Some(COLUMN_INDEX),
                [true, true, true, false] => Some(COLUMN_LENGTH),
                _ => None,
            };
            if let Some(column) = column {
                self.setup_rows.hit(row, column);
            }
        }
        if !before.configured {
            return;
        }
        self.observe_interruption(before, kind);
        if answered.number == Number::NoRow {
            for bit in bits_of_no_row(packet) {
                self.bits_of_no_row.see(bit);
            }
        }
        let value = u16::from_le_bytes([packet[2], packet[3]]);
        let index = u16::from_le_bytes([packet[4], packet[5]]);
        let no_row_but_for_index = |name: &str| {
            SETUP_ROWS.iter().any(|row| {
                row.name.starts_with(name) && row.request == packet[1] && row.fits(packet) == [true, true, false, true]
            })
        };
        let by_endpoint = no_row_but_for_index("CLEAR_FEATURE")
            || no_row_but_for_index("SET_FEATURE")
            || no_row_but_for_index("GET_STATUS");
        let at_interrupt = index == INTERRUPT_IN;
        let fits_but_value = |name: &str| {
            SETUP_ROWS.iter().any(|row| {
                row.name.starts_with(name)
                    && row.request == packet[1]
                    && matches!(row.fits(packet), [true, _, true, true])
            })
        };
        let abort = fits_but_value("INITIATE_ABORT");
        let read_status = fits_but_value("READ_STATUS_BYTE");
        let status = answered.bytes.as_ref().and_then(|bytes| bytes.first().copied());
        let initiated = status == Some(0x01);
        let abort_in = matches!(before.split, Split::AbortIn { .. });
        let in_open = before.in_transfer.is_some();
        let next_tag = before.in_transfer.as_ref().map(|transfer| u16::from(transfer.tag) + 1);
        self.boundaries(
            before,
            &[
                (abort && value == 0, "abort tag 0 matches no row"),
                (abort && value == 1, "abort tag 1"),
                (abort && value == 255, "abort tag 255"),
                (abort && value == 256, "abort tag 256 matches no row"),
                (read_status && value == 1, "READ_STATUS_BYTE tag 1 matches no row"),
                (read_status && value == 2, "READ_STATUS_BYTE tag 2"),
                (read_status && value == 127, "READ_STATUS_BYTE tag 127"),
                (read_status && value == 128, "READ_STATUS_BYTE tag 128 matches no row"),
                (at_interrupt && no_row_but_for_index("INITIATE_ABORT"), "INITIATE_ABORT at 0x83 matches no row"),
                (at_interrupt && no_row_but_for_index("CHECK_ABORT"), "CHECK_ABORT at 0x83 matches no row"),
                (by_endpoint && index == 0x03, "feature or status row at 0x03 matches no row"),
                (by_endpoint && index == 0x183, "feature or status row at 0x183 matches no row"),
                (by_endpoint && index == 0x84, "feature or status row at 0x84 matches no row"),
                (
                    kind == Kind::AbortOut && initiated && out_column(before) == 4,
                    "INITIATE_ABORT_BULK_OUT in a later transfer",
                ),
                (
                    kind == Kind::AbortIn && initiated && before.in_halted,
                    "INITIATE_ABORT_BULK_IN with Bulk-IN halted is 01",
                ),
                (
                    kind == Kind::AbortInOtherTag && status == Some(0x81) && next_tag == Some(value),
                    "INITIATE_ABORT_BULK_IN of a wrong tag + 1 is 81",
                ),
                (
                    kind == Kind::InitiateClear && matches!(before.split, Split::AbortOut { .. }),
                    "INITIATE_CLEAR in abort-OUT",
                ),
                (kind == Kind::InitiateClear && abort_in && before.owed, "INITIATE_CLEAR in abort-IN, owed"),
                (
                    kind == Kind::InitiateClear && abort_in && !before.owed && in_open,
                    "INITIATE_CLEAR in abort-IN, polled, new transfer open",
                ),
                (
                    kind == Kind::InitiateClear && initiated && before.in_halted && in_open,
                    "INITIATE_CLEAR with Bulk-IN halted and a transfer open",
                ),
                (
                    kind == Kind::CheckClear && status == Some(0x02) && before.in_halted,
                    "CHECK_CLEAR_STATUS with packet owed and Bulk-IN halted is 02",
                ),
                (
                    kind == Kind::ClearFeatureIn && before.owed && before.reply.is_some(),
                    "CLEAR_FEATURE 0x82 with packet owed and a new reply",
                ),
            ],
        );
        match (kind, before.split) {
            (Kind::CheckAbortOut, Split::AbortOut { count }) => {
                let packets = (count as usize + HEADER) / before.packet_size;
                self.out_counts[size_column(before)].see(packets - 1);
            }
            (Kind::CheckAbortIn, Split::AbortIn { count }) if initiated => {
                let packets = if count == 0 { 0 } else { (count as usize + HEADER) / before.packet_size };
                self.in_counts[size_column(before)].see(packets);
            }
            (Kind::ReadStatusByte, _) if status == Some(0x20) => self.status_tags_busy.see(usize::from(value) - 2),
            _ => {}
        }
    }

    /// A clear or a halt that meets an open transfer, one that owes no packet.
    fn observe_interruption(&mut self, before: &Unit, kind: Kind) {
        let p = before.packet_size;
        let out = before.out_transfer.as_ref().map(|transfer| (transfer.got + HEADER) / p - 1);
        let into = match &before.in_transfer {
            Some(transfer) if !before.owed => Some(transfer.sending.map_or(0, |sending| (sending.sent + HEADER) / p)),
            _ => None,
        };
        for (index, (interruption, _)) in INTERRUPTIONS.iter().enumerate() {
            let meant = match interruption {
                Interruption::ClearOut | Interruption::ClearIn => Kind::InitiateClear,
                Interruption::SetFeatureOut => Kind::SetFeatureOut,
                Interruption::ClearFeatureOut => Kind::ClearFeatureOut,
                Interruption::SetFeatureIn => Kind::SetFeatureIn,
                Interruption::ClearFeatureIn => Kind::ClearFeatureIn,
            };
            let packets = if interrupts_out(*interruption) { out } else { into };
            if let (true, Some(packets)) = (kind == meant, packets) {
                self.interrupted[index][size_column(before)].see(packets);
            }
        }
    }
}
