//! A take or an offer is counted.

use super::Coverage;
use crate::cells::*;
use crate::line::Answered;
use crate::unit::{Split, Unit, STORE};

impl Coverage {
    pub(super) fn observe_take(&mut self, before: &Unit, buffer: usize, answered: &Answered) {
        let number = answered.number as u8;
        let held = before.held();
        self.boundaries(
            before,
            &[
                (number == 3 && buffer == 0, "take buffer 0 is 3"),
                (number == 3 && buffer + 1 == held, "take buffer one short is 3"),
                (number == 0 && buffer == held, "take buffer exact"),
                (number == 0 && buffer == held + 1, "take buffer one more"),
                (number == 0 && buffer == 2048, "take buffer 2,048"),
                (number == 16 && held == 0 && buffer == 0, "take with nothing there, buffer 0, is 16"),
                (number == 16 && held > 0, "take of an unfinished message is 16"),
                (number == 0 && before.out_halted, "take with Bulk-OUT halted"),
            ],
        );
        if number == 0 {
            self.messages[size_column(before)].see(held - 1);
        }
    }

    pub(super) fn observe_offer(&mut self, before: &Unit, length: usize, answered: &Answered) {
        let number = answered.number as u8;
        let stored = before.reply.as_ref();
        let clear = before.split == Split::Clear;
        self.boundaries(
            before,
            &[
                (number == 3 && length == 0, "offer of 0 bytes is 3"),
                (number == 0 && length == 1, "offer of 1 byte"),
                (number == 0 && length == STORE, "offer of 1,024 bytes"),
                (number == 3 && length == STORE + 1, "offer of 1,025 bytes is 3"),
                (number == 16 && stored.is_some(), "offer over a stored reply is 16"),
                (
                    number == 16 && stored.is_some_and(|reply| reply.unsent().is_empty()),
                    "offer before the closing packet is 16",
                ),
                (number == 16 && clear, "offer in a clear is 16"),
                (
                    number == 3 && stored.is_some() && length == STORE + 1,
                    "offer of 1,025 bytes over a stored reply is 3",
                ),
                (number == 3 && clear && length == 0, "offer of 0 bytes in a clear is 3"),
                (number == 0 && before.owed, "offer while an abort's packet is owed"),
            ],
        );
        if number == 3 && (1025..=1100).contains(&length) {
            self.replies_refused.see(length - 1025);
        }
    }
}
