//! Bulk-IN: the poll, and what its first packet fixes.

use super::{Answer, InTransfer, Number, Sending, Unit};

impl Unit {
    /// The Bulk-IN poll.
    pub fn bulk_in(&mut self, buffer: &mut [u8]) -> Answer {
        if !self.configured {
            return Answer::refused(Number::Unconfigured);
        }
        if buffer.len() < self.packet_size {
            return Answer::refused(Number::WrongSize);
        }
        if self.in_halted {
            return Answer::refused(Number::Halted);
        }
        // "owes an empty packet, the next one polled; that closes the transfer"
        if self.owed {
            self.owed = false;
            self.in_transfer = None;
            return Answer::written(buffer, &[]);
        }
        // 5: "no packet owed and either no transfer open or no reply"
        let (Some(transfer), Some(reply)) = (&mut self.in_transfer, &mut self.reply) else {
            return Answer::refused(Number::Wait);
        };
        let mut packet = Vec::new();
        let mut sending = match transfer.sending {
            Some(sending) => sending,
            None => {
                let (n, attributes) = first_packet(transfer, reply.unsent());
                packet.extend_from_slice(&[2, transfer.tag, 255 - transfer.tag, 0]);
                packet.extend_from_slice(&(n as u32).to_le_bytes());
                packet.extend_from_slice(&[attributes, 0, 0, 0]);
                Sending { n, sent: 0, all_that_is_left: attributes & 1 != 0 }
            }
        };
        // "Packets of P follow until a shorter one", with no alignment bytes.
        let count = (sending.n - sending.sent).min(self.packet_size - packet.len());
        packet.extend_from_slice(&reply.unsent()[..count]);
        reply.sent += count;
        sending.sent += count;
        transfer.sending = Some(sending);
        if packet.len() < self.packet_size {
            // "a shorter one, empty if 12 + N divides by P, closes the transfer"
            self.in_transfer = None;
            // "The reply is gone when a transfer with D0 closes."
            if sending.all_that_is_left {
                self.reply = None;
            }
        }
        Answer::written(buffer, &packet)
    }
}

/// N, "the least of the TransferSize asked, the reply bytes left, and, if enabled, the bytes up to and with the first
/// TermChar left", and the attributes: "D0 when N is all that is left, D1 when TermChar is enabled and the last byte
/// sent is it".
fn first_packet(transfer: &InTransfer, left: &[u8]) -> (usize, u8) {
    let mut n = left.len().min(transfer.asked as usize);
    if let Some(term_char) = transfer.term_char {
        if let Some(place) = left.iter().position(|&byte| byte == term_char) {
            n = n.min(place + 1);
        }
    }
    let all_that_is_left = n == left.len();
    let ends_in_term_char = transfer.term_char == Some(left[n - 1]);
    (n, u8::from(all_that_is_left) | u8::from(ends_in_term_char) << 1)
}
