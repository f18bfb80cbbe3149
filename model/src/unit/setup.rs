//! The setup packet call: what each row answers, and the features and capabilities. The splits have their own file.

use super::rows::{Endpoint, Row};
use super::{Answer, Fault, Number, Split, Tells, Unit, CONTROL_BUFFER};

/// "Statuses: 01 SUCCESS, 02 PENDING, 80 FAILED, .."
pub(super) const SUCCESS: u8 = 0x01;
pub(super) const PENDING: u8 = 0x02;
/// STATUS_INTERRUPT_IN_BUSY, "status 0x20"
pub(super) const INTERRUPT_IN_BUSY: u8 = 0x20;
pub(super) const FAILED: u8 = 0x80;
pub(super) const TRANSFER_NOT_IN_PROGRESS: u8 = 0x81;
pub(super) const SPLIT_NOT_IN_PROGRESS: u8 = 0x82;
pub(super) const SPLIT_IN_PROGRESS: u8 = 0x83;

/// "24: 01 00 00 01 04 01, six 0, 00 01 03 03, eight 0", and "Capabilities gain SR1": bit D2 of the last of the four
#[rustfmt::skip]
const CAPABILITIES: [u8; 24] = [
    0x01, 0x00, 0x00, 0x01, 0x04, 0x01,
    0, 0, 0, 0, 0, 0,
    0x00, 0x01, 0x03, 0x07,
    0, 0, 0, 0, 0, 0, 0, 0,
];

impl Unit {
    /// The setup packet call. "Setup: 1, 3, 15."
    pub fn setup(&mut self, packet: &[u8], buffer: &mut [u8]) -> Answer {
        if packet.len() != 8 || buffer.len() < CONTROL_BUFFER {
            return Answer::refused(Number::WrongSize);
        }
        // "Unconfigured, only SET_CONFIGURATION is served."
        let row = match Row::of(&self.as_read(packet, 5, Fault::IndexHighByteLost)) {
            Some(row) if self.configured || matches!(row, Row::SetConfiguration(_)) => row,
            _ => return Answer::refused(Number::NoRow),
        };
        match row {
            Row::InitiateAbortBulkOut(tag) => Answer::written(buffer, &self.initiate_abort_out(tag)),
            Row::InitiateAbortBulkIn(tag) => Answer::written(buffer, &self.initiate_abort_in(tag)),
            Row::CheckAbortBulkOutStatus => Answer::written(buffer, &self.check_abort_out()),
            Row::CheckAbortBulkInStatus => Answer::written(buffer, &self.check_abort_in()),
            Row::InitiateClear => Answer::written(buffer, &[self.initiate_clear()]),
            Row::CheckClearStatus => Answer::written(buffer, &self.check_clear()),
            Row::GetCapabilities => Answer::written(buffer, &CAPABILITIES),
            Row::IndicatorPulse => Answer { tells: Some(Tells::Pulse), ..Answer::written(buffer, &[SUCCESS]) },
            Row::ReadStatusByte(tag) => Answer::written(buffer, &self.read_status_byte(tag)),
            Row::RenControl(on) => {
                if on {
                    self.ren = true;
                } else {
                    self.local_now();
                }
                Answer::written(buffer, &[SUCCESS])
            }
            Row::GoToLocal => {
                self.go_to_local();
                Answer::written(buffer, &[SUCCESS])
            }
            Row::LocalLockout => {
                self.locked_out();
                Answer::written(buffer, &[SUCCESS])
            }
            Row::ClearFeature(endpoint) => {
                self.clear_halt(endpoint);
                Answer::written(buffer, &[])
            }
            Row::SetFeature(Endpoint::Out) => {
                self.halt_bulk_out();
                Answer::written(buffer, &[])
            }
            // The halt and nothing else: transfer, reply and owed packet stay.
            Row::SetFeature(Endpoint::In) => {
                self.in_halted = true;
                Answer::written(buffer, &[])
            }
            // "dropping no packet"
            Row::SetFeature(Endpoint::Interrupt) => {
                self.interrupt_halted = true;
                Answer::written(buffer, &[])
            }
            // "1 if halted else 0, then 0"
            Row::GetStatus(Endpoint::Out) => Answer::written(buffer, &[u8::from(self.out_halted), 0]),
            Row::GetStatus(Endpoint::In) => Answer::written(buffer, &[u8::from(self.in_halted), 0]),
            Row::GetStatus(Endpoint::Interrupt) => Answer::written(buffer, &[u8::from(self.interrupt_halted), 0]),
            Row::SetConfiguration(configured) => {
                self.configure(configured);
                Answer::written(buffer, &[])
            }
        }
    }

    fn clear_halt(&mut self, endpoint: Endpoint) {
        match endpoint {
            // "ends the halt and drops what is unfinished; during a clear or abort-OUT split it is answered and the
            // halt stays"
            Endpoint::Out => {
                if !matches!(self.split, Split::Clear | Split::AbortOut { .. }) {
                    self.out_halted = false;
                }
                self.drop_unfinished();
            }
            // "ends the halt and any owed packet; an open transfer closes, and the stored reply goes with it unless a
            // packet was owed"
            Endpoint::In => {
                self.in_halted = false;
                if self.in_transfer.is_some() && !self.owed {
                    self.reply = None;
                }
                self.in_transfer = None;
                self.owed = false;
            }
            // The halt alone, in any split: "dropping no packet".
            Endpoint::Interrupt => self.interrupt_halted = false,
        }
    }
}
