//! The table of setup rows: which packets match one.

use super::{BULK_IN, BULK_OUT, INTERRUPT_IN};

/// "By endpoint": "feature .. and status rows take 0x83", abort rows do not.
#[derive(Clone, Copy, PartialEq, Eq)]
pub(super) enum Endpoint {
    Out,
    In,
    Interrupt,
}

impl Endpoint {
    fn at(index: u16) -> Option<Endpoint> {
        match index {
            BULK_OUT => Some(Endpoint::Out),
            BULK_IN => Some(Endpoint::In),
            INTERRUPT_IN => Some(Endpoint::Interrupt),
            _ => None,
        }
    }
}

/// A setup packet that matches a row.
pub(super) enum Row {
    InitiateAbortBulkOut(u8),
    InitiateAbortBulkIn(u8),
    CheckAbortBulkOutStatus,
    CheckAbortBulkInStatus,
    InitiateClear,
    CheckClearStatus,
    GetCapabilities,
    IndicatorPulse,
    ReadStatusByte(u8),
    RenControl(bool),
    GoToLocal,
    LocalLockout,
    ClearFeature(Endpoint),
    SetFeature(Endpoint),
    GetStatus(Endpoint),
    SetConfiguration(bool),
}

impl Row {
    /// The table of rows: bmRequestType, bRequest, wValue, wIndex, wLength.
    pub(super) fn of(packet: &[u8]) -> Option<Row> {
        let word = |at: usize| u16::from_le_bytes([packet[at], packet[at + 1]]);
        let (value, index, length) = (word(2), word(4), word(6));
        Some(match (packet[0], packet[1], value, index, length) {
            (0xA2, 1, 1..=255, BULK_OUT, 2) => Row::InitiateAbortBulkOut(value as u8),
            (0xA2, 3, 1..=255, BULK_IN, 2) => Row::InitiateAbortBulkIn(value as u8),
            (0xA2, 2, 0, BULK_OUT, 8) => Row::CheckAbortBulkOutStatus,
            (0xA2, 4, 0, BULK_IN, 8) => Row::CheckAbortBulkInStatus,
            (0xA1, 5, 0, 0, 1) => Row::InitiateClear,
            (0xA1, 6, 0, 0, 2) => Row::CheckClearStatus,
            (0xA1, 7, 0, 0, 24) => Row::GetCapabilities,
            (0xA1, 64, 0, 0, 1) => Row::IndicatorPulse,
            (0xA1, 128, 2..=127, 0, 3) => Row::ReadStatusByte(value as u8),
            (0xA1, 160, 0 | 1, 0, 1) => Row::RenControl(value == 1),
            (0xA1, 161, 0, 0, 1) => Row::GoToLocal,
            (0xA1, 162, 0, 0, 1) => Row::LocalLockout,
            (0x02, 1, 0, _, 0) => Row::ClearFeature(Endpoint::at(index)?),
            (0x02, 3, 0, _, 0) => Row::SetFeature(Endpoint::at(index)?),
            (0x82, 0, 0, _, 2) => Row::GetStatus(Endpoint::at(index)?),
            (0x00, 9, 0 | 1, 0, 0) => Row::SetConfiguration(value == 1),
            _ => return None,
        })
    }
}
