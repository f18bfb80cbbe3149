//! The thermostat's calls.

use crate::cells::*;
use crate::line::Call;
use crate::traffic::Traffic;
use crate::unit::STORE;

impl Traffic {
    /// Take, offer, status and panel with sizes on each side of a line.
    pub fn thermostat_scene(&mut self) {
        for _ in 0..2 {
            let size = self.any_size().min(200);
            self.say(Call::Take(self.player.unit.held().saturating_sub(1)));
            self.transfer(size as u32, true);
            let halted = self.random.once_in(6);
            if halted {
                self.say_kind(Kind::SetFeatureOut);
            }
            let held = self.player.unit.held();
            for buffer in [0, held.saturating_sub(1), self.random.pick(&[held, held + 1, STORE, 2048])] {
                if self.random.once_in(2) || buffer >= held {
                    self.say(Call::Take(buffer));
                }
            }
            let size = self.random.pick(&[1, STORE, STORE + 1, 0, size]);
            self.offer(size);
            let size = self.random.pick(&[1, STORE, STORE + 1, 0, size]);
            self.offer(size);
            self.say_kind(Kind::Status);
            self.say_kind(Kind::ReadStatusByte);
            self.say_kind(Kind::In3);
            self.say_kind(Kind::ServiceRequest);
            self.say_kind(Kind::ReadStatusByte);
            self.say_kind(Kind::In3);
            self.say_kind(Kind::Local);
            self.tidy();
        }
        if self.random.once_in(4) {
            // Every byte is sent, and the reply is stored until the closing packet.
            self.fresh();
            self.send_packets(1, true);
            self.say_one_of(&[Kind::Offer, Kind::OfferRefused]);
            self.say_kind(Kind::Offer);
            self.poll(2);
            self.say_kind(Kind::Offer);
        }
    }
}
