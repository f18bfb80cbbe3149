//! What real hosts do, what comes to an unconfigured unit, and wandering.

use crate::cells::*;
use crate::traffic::Traffic;

impl Traffic {
    /// Open, write, read, time out and clear as real hosts do.
    pub fn host_scene(&mut self) {
        if self.random.once_in(3) {
            self.say_kind(Kind::Configure);
            self.say_kind(Kind::GetCapabilities);
            if self.random.once_in(2) {
                self.say_kind(Kind::RenOn);
            }
            if self.random.once_in(2) {
                self.say_kind(Kind::LocalLockout);
            }
        }
        for _ in 0..self.random.between(1, 3) {
            let size = self.random.between(1, 30);
            self.transfer(size as u32, true);
            self.take();
            let late = self.random.once_in(3);
            let size = self.any_size();
            if !late {
                self.offer(size);
            }
            let asked = self.random.pick(&[20_480, 0x7FFF_FFFF, 1024, size as u32]);
            self.request(asked, None);
            if late {
                self.say_kind(Kind::In);
                self.offer(size);
            }
            self.poll(40);
        }
        match self.random.below(4) {
            // A read that times out.
            0 => {
                let size = self.random.between(1, 12);
                self.transfer(size as u32, true);
                self.take();
                self.request(20_480, None);
                self.say_kind(Kind::In);
                self.say_one_of(&[Kind::AbortIn, Kind::AbortIn, Kind::AbortInOtherTag]);
                self.say_kind(Kind::In);
                self.say_kind(Kind::CheckAbortIn);
                self.request(20_480, None);
            }
            // A device clear.
            1 => {
                self.say_kind(Kind::InitiateClear);
                self.say_kind(Kind::CheckClear);
                if self.player.unit.owed {
                    self.say_kind(Kind::In);
                    self.say_kind(Kind::CheckClear);
                }
                self.say_kind(Kind::ClearFeatureOut);
            }
            2 => {
                self.say_kind(Kind::GoToLocal);
            }
            _ => {
                self.say_kind(Kind::OutTrigger);
                self.say_kind(Kind::ReadStatusByte);
                self.say_kind(Kind::In3);
            }
        }
    }

    /// Calls of every kind to an unconfigured unit.
    pub fn unconfigured_scene(&mut self) {
        self.say_one_of(&[Kind::Unconfigure, Kind::Reset]);
        for _ in 0..self.random.between(1, 12) {
            self.stray();
            if self.player.unit.configured {
                break;
            }
        }
        if !self.random.once_in(4) {
            self.say_kind(Kind::Configure);
        }
    }

    /// Whatever comes: the natural next step of the unit, or a call that it has met least.
    pub fn wander_scene(&mut self) {
        for _ in 0..self.random.between(8, 40) {
            let unit = &self.player.unit;
            let step = if self.random.once_in(3) {
                None
            } else if unit.out_transfer.is_some() {
                Some(Kind::OutContinuing)
            } else if unit.message_ready() {
                Some(Kind::Take)
            } else if unit.in_transfer.is_some() && unit.reply.is_some() {
                Some(Kind::In)
            } else {
                Some(self.random.pick(&[Kind::OutMessage, Kind::OutRequest, Kind::Offer, Kind::In]))
            };
            let kind = match step {
                Some(kind) => kind,
                None => self.aim(),
            };
            self.say_kind(kind);
            if !self.player.unit.configured && self.random.once_in(2) {
                self.say_kind(Kind::Configure);
            }
        }
    }
}
