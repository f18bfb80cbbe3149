//! A Bulk-IN poll is counted.

use super::Coverage;
use crate::cells::*;
use crate::line::Answered;
use crate::unit::{Reply, Unit, HEADER};

impl Coverage {
    pub(super) fn observe_in(&mut self, before: &Unit, buffer: usize, answered: &Answered, after: &Unit) {
        let number = answered.number as u8;
        let p = before.packet_size;
        let open = before.in_transfer.is_some();
        let stored = before.reply.is_some();
        let owed = before.owed;
        let length = answered.bytes.as_ref().map_or(0, Vec::len);
        let sending = before.in_transfer.as_ref().and_then(|transfer| transfer.sending);
        let closing = number == 0 && !owed && length == 0;
        let closed = number == 0 && !owed && after.in_transfer.is_none();
        self.boundaries(
            before,
            &[
                (number == 3 && buffer == 0, "IN buffer 0 is 3"),
                (number == 3 && buffer == p - 1, "IN buffer P - 1 is 3"),
                (number == 0 && buffer == p && length > 0, "IN buffer P"),
                (number == 0 && buffer == p + 1 && length > 0, "IN buffer P + 1"),
                (number == 0 && buffer == 2048 && length > 0, "IN buffer 2,048"),
                (number == 5 && !open && !stored, "poll waits: no transfer, no reply"),
                (number == 5 && !open && stored, "poll waits: no transfer, reply stored"),
                (number == 5 && open && !stored, "poll waits: transfer open, no reply"),
                (number == 0 && owed && !stored, "owed packet polled, no reply"),
                (number == 0 && owed && stored, "owed packet polled, new reply stays"),
                (number == 3 && owed && buffer == p - 1, "owed packet, IN buffer P - 1 is 3"),
                (number == 4 && owed, "owed packet, Bulk-IN halted is 4"),
                (closing && after.reply.is_none(), "closing empty packet with D0"),
                (closing && after.reply.is_some(), "closing empty packet without D0"),
                (closed && after.reply.is_none(), "reply gone after D0"),
                (closed && after.reply.is_some(), "reply stays without D0"),
            ],
        );
        if number != 0 || owed {
            return;
        }
        let (Some(transfer), Some(reply), Some(bytes)) = (&before.in_transfer, &before.reply, &answered.bytes) else {
            return;
        };
        let n = match sending {
            Some(sending) => sending.n,
            None => {
                let n = u32::from_le_bytes([bytes[4], bytes[5], bytes[6], bytes[7]]) as usize;
                self.observe_first_packet(before, transfer.asked, transfer.term_char, reply, n, bytes[8]);
                n
            }
        };
        if closing {
            self.closings[size_column(before)].see((n + HEADER) / p - 1);
        }
        if closed && n == reply.bytes.len() {
            self.replies[size_column(before)].see(n - 1);
        }
    }

    fn observe_first_packet(
        &mut self,
        before: &Unit,
        asked: u32,
        term_char: Option<u8>,
        reply: &Reply,
        n: usize,
        attributes: u8,
    ) {
        let p = before.packet_size;
        let left = reply.unsent();
        let asked_length = asked as usize;
        let place = term_char.and_then(|term_char| left.iter().position(|&byte| byte == term_char));
        let in_sent = term_char.is_some_and(|term_char| reply.bytes[..reply.sent].contains(&term_char));
        let ended = attributes & 2 != 0;
        self.boundaries(
            before,
            &[
                ((HEADER + n + 1) % p == 0, "12 + N = k P - 1"),
                ((HEADER + n) % p == 0, "12 + N = k P"),
                ((HEADER + n) % p == 1, "12 + N = k P + 1"),
                (asked == 1 && left.len() > 1, "asked 1 of more"),
                (asked_length + 1 == left.len() && n == asked_length, "asked one less than is left"),
                (asked_length == left.len() && n == asked_length, "asked what is left"),
                (asked_length == left.len() + 1 && n == left.len(), "asked one more than is left"),
                (asked == 0x7FFF_FFFF, "asked 2^31 - 1"),
                (asked == u32::MAX, "asked 2^32 - 1"),
                (
                    asked > 0xFFFF && usize::from(asked as u16) < left.len(),
                    "asked much, with a low half less than is left",
                ),
                (attributes == 0, "attributes 00"),
                (attributes == 1, "attributes 01"),
                (attributes == 2, "attributes 02"),
                (attributes == 3, "attributes 03"),
                (ended && n == asked_length && n < left.len(), "TermChar at the asked length"),
                (place == Some(asked_length), "TermChar just past the asked length"),
                (term_char.is_some() && place.is_none(), "TermChar not in what is left"),
                (place.is_none() && in_sent, "TermChar only in what was sent before"),
                (place == Some(0), "TermChar the first byte left"),
                (term_char.is_none() && left[..n - 1].contains(&0x0A), "TermChar off but in the data"),
                (ended && n > p - HEADER, "TermChar past the first packet"),
            ],
        );
        if let (Some(term_char), true) = (term_char, ended) {
            self.term_chars.see(usize::from(term_char));
        }
    }
}
