//! What a call means for Interrupt-IN is counted.

use super::observe::count_faults;
use super::Coverage;
use crate::cells::*;
use crate::line::{Answered, Call};
use crate::unit::{Unit, BIT_6};

impl Coverage {
    pub(super) fn observe_interrupt(
        &mut self,
        before: &Unit,
        kind: Kind,
        call: &Call,
        answered: &Answered,
        after: &Unit,
    ) {
        let number = answered.number as u8;
        let done = number == 0;
        for event in interrupt_events(before, kind, answered, self.origin, self.taken_back, after) {
            let row = INTERRUPT_EVENTS.iter().position(|name| *name == event).expect("the event stands in the table");
            self.interrupt_events.hit(row, split_column(before));
        }
        if let Call::In3(buffer) = call {
            self.observe_in3(before, *buffer, answered, after);
        }
        let status = match call {
            Call::Status(status) if done => Some(*status),
            _ => None,
        };
        let asked = status.is_some_and(|status| status & BIT_6 != 0);
        let first = before.waiting.map(|packet| packet[0]);
        let off = status.is_some() && !asked;
        let answer = answered.bytes.as_ref().and_then(|bytes| bytes.first().copied());
        let cleared = kind == Kind::InitiateClear && answer == Some(0x01);
        let busy = kind == Kind::ReadStatusByte && answer == Some(0x20);
        let all_halted = before.out_halted && before.in_halted && before.interrupt_halted;
        let just_kept = std::mem::replace(
            &mut self.kept_just_queued,
            matches!(call, Call::In3(_)) && done && after.waiting.is_some(),
        );
        let just_read =
            std::mem::replace(&mut self.read_just_queued, kind == Kind::ReadStatusByte && answer == Some(0x01));
        self.boundaries(
            before,
            &[
                (just_kept && kind == Kind::In3 && done, "in3 right after the poll that queued a kept request"),
                (just_kept && status.is_some(), "status right after the poll that queued a kept request"),
                (just_kept && busy, "READ_STATUS_BYTE right after the poll that queued a kept request is 20"),
                (just_kept && cleared, "INITIATE_CLEAR right after the poll that queued a kept request"),
                (asked && self.taken_back, "bit 6 on again before the poll"),
                (asked && before.kept && status != Some(before.status), "a kept request with another byte than before"),
                (off && first == Some(0x81), "bit 6 off with the packet of a request waiting"),
                (off && first.is_some_and(|first| first > 0x81), "bit 6 off with the packet of a read waiting"),
                (off && just_read, "bit 6 off right after a read was queued"),
                (busy && self.taken_back, "READ_STATUS_BYTE with a request taken back is 20"),
                (busy && before.kept, "READ_STATUS_BYTE with bit 6 held is 20"),
                (kind == Kind::In && done && before.interrupt_halted, "in is 0 with 0x83 halted"),
                (matches!(call, Call::Out(_)) && done && before.interrupt_halted, "out is 0 with 0x83 halted"),
                (kind == Kind::Take && done && first.is_some(), "take is 0 with a packet waiting"),
                (kind == Kind::Offer && done && first.is_some(), "offer is 0 with a packet waiting"),
                (cleared && before.kept, "INITIATE_CLEAR with a packet and a kept request is 01"),
                (cleared && before.interrupt_halted, "INITIATE_CLEAR with 0x83 halted is 01"),
                (
                    kind == Kind::CheckClear && answer == Some(0x01) && before.kept,
                    "CHECK_CLEAR_STATUS with a packet and a kept request is 01",
                ),
                (kind == Kind::ClearFeatureInterrupt && done && all_halted, "CLEAR_FEATURE 0x83 with all three halted"),
            ],
        );
        let polled = matches!(call, Call::In3(_)) && done;
        self.taken_back = after.waiting.is_some() && !polled && !asked && (self.taken_back || (off && before.kept));
        self.origin = match after.waiting {
            None => None,
            Some(_) if polled => Some(Origin::Kept),
            Some(_) if before.waiting.is_some() => self.origin,
            Some(_) if kind == Kind::ReadStatusByte => Some(Origin::Read),
            Some(_) => Some(Origin::Request),
        };
    }

    fn observe_in3(&mut self, before: &Unit, buffer: usize, answered: &Answered, after: &Unit) {
        let number = answered.number as u8;
        let done = number == 0;
        count_faults(&mut self.poll_refusals, &poll_refusals(before, buffer), number, &POLL_REFUSALS);
        let read = self.origin == Some(Origin::Read);
        let queued = done && after.waiting.is_some();
        self.boundaries(
            before,
            &[
                (number == 3 && buffer == 0, "in3 buffer 0 is 3"),
                (number == 3 && buffer == 1, "in3 buffer 1 is 3"),
                (done && buffer == 2, "in3 buffer 2"),
                (done && buffer == 3, "in3 buffer 3"),
                (done && buffer == 64, "in3 buffer 64"),
                (done && buffer == 2048, "in3 buffer 2,048"),
                (queued && !read, "in3 brings a request and queues the kept one"),
                (queued && read, "in3 brings a read and queues the kept request"),
                (done && before.out_halted && before.in_halted, "in3 brings a packet with both bulk endpoints halted"),
            ],
        );
        if let (true, Some([first, status])) = (done, before.waiting) {
            let sweep = match self.origin {
                Some(Origin::Request) => &mut self.bytes_requested,
                Some(Origin::Kept) => &mut self.bytes_kept,
                _ => {
                    self.status_tags.see(usize::from(first) - 0x82);
                    &mut self.bytes_read
                }
            };
            sweep.see(status_number(status));
        }
    }
}
