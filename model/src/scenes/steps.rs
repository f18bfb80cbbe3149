//! Steps that scenes are made of: a transfer, a poll, a REQUEST, an offer.

use crate::cells::*;
use crate::line::Call;
use crate::traffic::Traffic;
use crate::unit::{Number, HEADER, STORE};

impl Traffic {
    /// A whole transfer of a message, as far as it is accepted.
    pub fn transfer(&mut self, size: u32, end: bool) {
        let first = self.message_packet(size, end);
        if self.say(Call::Out(first)) == Number::Done {
            self.continue_transfer(usize::MAX);
        }
    }

    pub fn continue_transfer(&mut self, packets: usize) {
        for _ in 0..packets {
            let Some(packet) = self.continuing_packet() else { return };
            if self.say(Call::Out(packet)) != Number::Done {
                return;
            }
        }
    }

    pub fn small_transfer(&mut self, end: bool) {
        let size = self.random.between(1, 12);
        self.transfer(size as u32, end);
    }

    pub fn poll(&mut self, packets: usize) {
        for _ in 0..packets {
            if self.say_kind(Kind::In) != Some(Number::Done) || self.player.unit.in_transfer.is_none() {
                return;
            }
        }
    }

    pub fn request(&mut self, asked: u32, term_char: Option<u8>) -> Number {
        let packet = self.request_packet(asked, term_char);
        self.say(Call::Out(packet))
    }

    pub fn offer(&mut self, size: usize) -> Number {
        let data = self.data(size);
        self.say(Call::Offer(data))
    }

    pub fn take(&mut self) {
        self.say(Call::Take(STORE));
    }

    /// Opens an IN transfer and polls `packets` of it; with `closing` only the empty packet is left then.
    pub fn send_packets(&mut self, packets: usize, closing: bool) {
        let p = self.player.unit.packet_size;
        let sent = (packets * p).saturating_sub(HEADER);
        let more = STORE.saturating_sub(sent);
        let (size, asked) = if closing && packets > 0 {
            let rest = if self.random.once_in(2) { 0 } else { self.random.between(0, more) };
            (sent + rest, if rest == 0 { self.random.pick(&[sent as u32, 5000]) } else { sent as u32 })
        } else {
            let size = (sent + self.random.between(1, more.max(1))).min(STORE);
            (size, self.random.pick(&[size as u32, 5000, u32::MAX]))
        };
        let before = self.random.once_in(2);
        if before {
            self.offer(size.max(1));
        }
        self.request(asked.max(1), None);
        if !before {
            self.offer(size.max(1));
        }
        self.poll(packets);
    }
}
