//! Old bytes, alignment bytes that are not 0 (02, 2), where a port might let them through: to a message, to a count, to
//! the next transfer.

use crate::cells::*;
use crate::line::Call;
use crate::traffic::Traffic;
use crate::unit::{Number, HEADER, STORE};

impl Traffic {
    /// Old bytes at the edges: of P, of a transfer, of the store, and of what is refused.
    pub fn old_bytes_scene(&mut self) {
        for _ in 0..2 {
            self.quietly(|traffic| {
                traffic.fresh();
                match traffic.random.below(8) {
                    0 => traffic.old_bytes_up_to_p(),
                    1 => traffic.old_bytes_within_a_message(),
                    2 => traffic.old_bytes_at_the_full_store(),
                    3 => traffic.old_bytes_before_an_abort(),
                    _ => traffic.old_bytes_refused(),
                }
                traffic.state();
            });
            self.say_kind(Kind::Take);
            self.tidy();
        }
    }

    /// A size that leaves room for 1 to 3 alignment bytes.
    fn unaligned_size(&mut self, most: usize) -> u32 {
        (self.random.between(1, most / 4) * 4 - self.random.between(1, 3)) as u32
    }

    /// A whole transfer that ends with old bytes, and now and then a call that shows what came of it.
    fn transfer_with_old_bytes(&mut self, size: u32, end: bool) {
        let mut next = Some(self.message_packet(size, end));
        while let Some(packet) = next {
            let packet = self.with_old_bytes(packet);
            if self.say(Call::Out(packet)) != Number::Done {
                return;
            }
            next = self.continuing_packet();
        }
        match self.random.below(6) {
            0 => self.state(),
            1 => {
                self.say_one_of(&[Kind::AbortOut, Kind::AbortOut, Kind::AbortOutOtherTag]);
            }
            2 => {
                self.say_kind(Kind::OutEmpty);
            }
            _ => {}
        }
    }

    /// The last packet is P long, and old bytes are the end of it.
    fn old_bytes_up_to_p(&mut self) {
        let p = self.player.unit.packet_size;
        let packets = self.random.pick(&[1, 2, STORE / p]);
        let size = packets * p - HEADER - self.random.between(1, 3);
        let end = self.random.once_in(2);
        self.transfer_with_old_bytes(size as u32, end);
        if !end {
            self.small_transfer(true);
        }
    }

    /// A message of several transfers.
    fn old_bytes_within_a_message(&mut self) {
        let transfers = self.random.between(2, 4);
        for transfer in 1..=transfers {
            let size = self.unaligned_size(STORE / 4);
            self.transfer_with_old_bytes(size, transfer == transfers);
        }
    }

    /// A message of 1,024 bytes, so that the last old bytes come behind the last byte of the store.
    fn old_bytes_at_the_full_store(&mut self) {
        let first = self.unaligned_size(STORE);
        self.transfer_with_old_bytes(first, false);
        self.transfer_with_old_bytes(STORE as u32 - first, true);
    }

    /// A transfer that is aborted behind one with old bytes, of its own message or of the one before.
    fn old_bytes_before_an_abort(&mut self) {
        let p = self.player.unit.packet_size;
        let end = self.random.once_in(2);
        let size = self.unaligned_size(64);
        self.transfer_with_old_bytes(size, end);
        if end {
            self.take();
        }
        let size = self.random.between(p - HEADER + 1, STORE - 64);
        let packet = self.message_packet(size as u32, true);
        self.say(Call::Out(packet));
        let packets = self.random.below(3);
        if (packets + 1) * p < size + HEADER {
            self.continue_transfer(packets);
        }
        self.say_kind(Kind::AbortOut);
        self.say_kind(Kind::CheckAbortOut);
    }

    /// A first packet or a last one with old bytes, and a fault; a first one also where it has to wait.
    fn old_bytes_refused(&mut self) {
        let p = self.player.unit.packet_size;
        let mut size = self.unaligned_size(p - 2 * HEADER);
        // Where no alignment byte is due every byte behind the data is one too many.
        let none_due = self.random.once_in(5);
        if none_due {
            size = size.div_ceil(4) * 4;
        }
        let mut packet = if self.random.once_in(2) {
            if self.random.once_in(6) {
                self.small_transfer(true);
            }
            self.message_packet(size, true)
        } else {
            let packet = self.message_packet((p - HEADER) as u32 + size, true);
            self.say(Call::Out(packet));
            let Some(last) = self.continuing_packet() else { return };
            last
        };
        packet = self.with_old_bytes(packet);
        let good = packet.len();
        match self.random.below(12) {
            choice if none_due || choice < 3 => packet = self.resized(packet, good + 4),
            3..=6 => packet.truncate(good - 1),
            7 | 8 => packet = self.resized(packet, good + 1),
            9 => packet = self.resized(packet, p),
            10 => packet = self.resized(packet, p + 4),
            // 8 or 10 of a first packet.
            _ => packet[self.random.between(2, 3)] ^= 1,
        }
        self.say(Call::Out(packet));
    }
}
