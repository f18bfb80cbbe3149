//! The splits: INITIATE and CHECK of the two aborts and of a clear.

use super::setup::{FAILED, PENDING, SPLIT_IN_PROGRESS, SPLIT_NOT_IN_PROGRESS, SUCCESS, TRANSFER_NOT_IN_PROGRESS};
use super::{Fault, Message, Split, Unit};

impl Unit {
    /// "83 if any split is in progress, else 80 if none is open, 81 if the tag differs, else 01"; the second byte is
    /// the "tag of the open transfer, else most recent tag".
    pub(super) fn initiate_abort_out(&mut self, tag: u8) -> [u8; 2] {
        let open = self.out_transfer.as_ref().map(|transfer| transfer.tag);
        let status = self.abort_status(open, tag);
        if status == SUCCESS {
            // "Counts are data bytes received or sent in that transfer": fixed here.
            let count = self.out_transfer.as_ref().map_or(0, |transfer| transfer.got as u32);
            self.split = Split::AbortOut { count };
            // "An OUT abort halts Bulk-OUT."
            self.halt_bulk_out();
        }
        [status, open.unwrap_or(self.out_recent)]
    }

    pub(super) fn initiate_abort_in(&mut self, tag: u8) -> [u8; 2] {
        let open = self.in_transfer.as_ref().map(|transfer| transfer.tag);
        let status = self.abort_status(open, tag);
        if status == SUCCESS {
            let sending = self.in_transfer.as_ref().and_then(|transfer| transfer.sending);
            let count = sending.map_or(0, |sending| sending.sent as u32);
            self.split = Split::AbortIn { count };
            // "An IN abort drops the whole reply and owes an empty packet": the transfer stays open until it is
            // polled.
            self.reply = None;
            self.owed = true;
        }
        [status, open.unwrap_or(self.in_recent)]
    }

    fn abort_status(&self, open: Option<u8>, tag: u8) -> u8 {
        match open {
            _ if self.split != Split::None => SPLIT_IN_PROGRESS,
            None => FAILED,
            Some(own) if own != tag => TRANSFER_NOT_IN_PROGRESS,
            Some(_) => SUCCESS,
        }
    }

    pub(super) fn check_abort_out(&mut self) -> [u8; 8] {
        match self.split {
            Split::AbortOut { count } => self.aborted(count),
            // "CHECK of the wrong split is 82 with D0 = 0."
            _ => [SPLIT_NOT_IN_PROGRESS, 0, 0, 0, 0, 0, 0, 0],
        }
    }

    pub(super) fn check_abort_in(&mut self) -> [u8; 8] {
        match self.split {
            // "CHECK of abort-IN or clear is 02 with D0 = 1 while that packet is owed."
            Split::AbortIn { .. } if self.owed => [PENDING, 1, 0, 0, 0, 0, 0, 0],
            Split::AbortIn { count } => self.aborted(count),
            _ => [SPLIT_NOT_IN_PROGRESS, 0, 0, 0, 0, 0, 0, 0],
        }
    }

    /// "Otherwise 01 with D0 = 0, and the split ends": "status, D0, 0, 0, count (4)", the count "given only with 01, else
    /// 0".
    fn aborted(&mut self, count: u32) -> [u8; 8] {
        self.split = Split::None;
        let [c0, c1, c2, c3] = count.to_le_bytes();
        [SUCCESS, 0, 0, 0, c0, c1, c2, c3]
    }

    /// "INITIATE_CLEAR is 83 during a clear; otherwise 01". What it does not name survives: "REN, remote/local state,
    /// status byte, Bulk-IN halt", and "The waiting packet, the kept request and the halt of 0x83".
    pub(super) fn initiate_clear(&mut self) -> u8 {
        if self.split == Split::Clear {
            return SPLIT_IN_PROGRESS;
        }
        // "it ends any abort split, drops the ready message and the reply, sets both most recent tags to 0 (an open
        // transfer keeps its own), halts Bulk-OUT, and owes the empty packet if an IN transfer is open"
        self.split = Split::Clear;
        if self.message_ready() {
            self.message = Message::None;
        }
        self.reply = None;
        if self.fault != Some(Fault::TagKeptOverClear) {
            self.out_recent = 0;
            self.in_recent = 0;
        }
        self.halt_bulk_out();
        self.owed = self.in_transfer.is_some();
        SUCCESS
    }

    pub(super) fn check_clear(&mut self) -> [u8; 2] {
        if self.split != Split::Clear {
            return [SPLIT_NOT_IN_PROGRESS, 0];
        }
        if self.owed {
            return [PENDING, 1];
        }
        self.split = Split::None;
        [SUCCESS, 0]
    }
}
