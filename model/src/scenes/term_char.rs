//! Replies that are read up to a TermChar.

use crate::line::Call;
use crate::traffic::Traffic;
use crate::unit::{Number, STORE};

impl Traffic {
    pub fn term_char_scene(&mut self) {
        let complete = self.coverage.term_chars.complete();
        for _ in 0..if complete { 1 } else { 3 } {
            self.term_char_reply();
            self.tidy();
        }
    }

    /// A reply with the TermChar at chosen places, asked for in pieces.
    pub fn term_char_reply(&mut self) {
        if self.player.unit.reply.is_some() || self.player.unit.in_transfer.is_some() {
            self.fresh();
        }
        let p = self.player.unit.packet_size;
        let start = self.random.below(256);
        let missing = self.coverage.term_chars.missing(start) as u8;
        let term_char = self.random.pick(&[0x0A, missing, missing]);
        let filler = term_char.wrapping_add(self.random.between(1, 255) as u8);
        let size = self.random.pick(&[2, 5, 10, 40, p, 3 * p]).min(STORE);
        let mut reply = vec![filler; size];
        for _ in 0..self.random.pick(&[0, 1, 1, 2, 3]) {
            let anywhere = self.random.below(size);
            let at = self.random.pick(&[0, size - 1, size / 2, anywhere, anywhere]);
            reply[at] = term_char;
        }
        self.say(Call::Offer(reply));
        for _ in 0..6 {
            let Some(reply) = &self.player.unit.reply else { return };
            let left = reply.unsent();
            let place = left.iter().position(|&byte| byte == term_char).unwrap_or(left.len());
            let left = left.len() as u32;
            let place = place as u32;
            let asked =
                self.random.pick(&[place, place + 1, place + 2, 1, left.saturating_sub(1), left, left + 1, u32::MAX]);
            let enabled = if self.random.once_in(5) { None } else { Some(term_char) };
            if self.request(asked.max(1), enabled) != Number::Done {
                return;
            }
            self.poll(40);
        }
    }
}
