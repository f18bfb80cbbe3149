//! Interrupt-IN (02, request 1): the poll of 0x83, the status byte, and what of it is queued.

use super::setup::{INTERRUPT_IN_BUSY, SUCCESS};
use super::{Answer, Fault, Number, Unit, BIT_6, NOTIFY, SERVICE_REQUEST};

impl Unit {
    /// The Interrupt-IN poll: "polling 0x83 goes 1, 2, 3 (buffer under 2), 4 halted, 5 empty".
    pub fn interrupt_in(&mut self, buffer: &mut [u8]) -> Answer {
        if !self.configured {
            return Answer::refused(Number::Unconfigured);
        }
        if buffer.len() < NOTIFY {
            return Answer::refused(Number::WrongSize);
        }
        if self.interrupt_halted {
            return Answer::refused(Number::Halted);
        }
        let Some(packet) = self.waiting.take() else {
            return Answer::refused(Number::Wait);
        };
        // "if bit 6 is still on when the packet is polled, the status byte then held is queued; the kept request ends
        // either way"
        self.kept = false;
        if self.status & BIT_6 != 0 {
            self.queue_service_request();
        }
        Answer::written(buffer, &packet)
    }

    /// Set the status byte: it is stored whole. "Panel and set status: 1, 2." With bit 6 on it "is a service request".
    pub fn set_status(&mut self, status: u8) -> Answer {
        if !self.configured {
            return Answer::refused(Number::Unconfigured);
        }
        self.status = status;
        let asks = status & BIT_6 != 0;
        match self.waiting {
            None if asks => self.queue_service_request(),
            None => {}
            Some(_) if asks && self.fault == Some(Fault::KeptRequestLost) => self.status &= !BIT_6,
            Some([SERVICE_REQUEST, _]) if !asks && self.fault == Some(Fault::PacketWithdrawn) => {
                self.waiting = None;
                self.kept = false;
            }
            Some(_) => self.kept = asks,
        }
        Answer::done()
    }

    /// "a service request, which sends 0x81 and the status byte, and clears bit 6 once queued". The packet has bit 6 on
    /// (001, 3.4.1).
    fn queue_service_request(&mut self) {
        self.waiting = Some([SERVICE_REQUEST, self.status]);
        self.status &= !BIT_6;
    }

    /// "READ_STATUS_BYTE queues its tag with the top bit set and the status byte, and answers 0x00 in its third byte."
    /// While a packet waits it "gets status 0x20". The second byte is the tag both times (001, table 13).
    pub(super) fn read_status_byte(&mut self, tag: u8) -> [u8; 3] {
        if self.waiting.is_some() {
            return [INTERRUPT_IN_BUSY, tag, 0];
        }
        self.waiting = Some([0x80 | tag, self.status]);
        [SUCCESS, tag, 0]
    }
}
