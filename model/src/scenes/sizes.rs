//! Messages and replies of every size, and a store that is nearly full.

use crate::calls::HUGE;
use crate::cells::*;
use crate::line::Call;
use crate::traffic::Traffic;
use crate::unit::STORE;

impl Traffic {
    /// Messages of sizes that were not taken yet, 0 to 1,100.
    pub fn message_sizes_scene(&mut self) {
        let complete = self.coverage.messages[size_column(&self.player.unit)].complete();
        for _ in 0..if complete { 2 } else { 6 } {
            let column = size_column(&self.player.unit);
            let start = self.random.below(STORE);
            let size = match self.random.below(12) {
                0 => 0,
                1 => STORE + 1 + self.coverage.too_long[column].missing(start % 76),
                _ => 1 + self.coverage.messages[column].missing(start),
            };
            self.transfer(size as u32, true);
            self.say_kind(Kind::Take);
            self.tidy();
        }
    }

    /// Replies of sizes that were not sent yet, 0 to 1,100.
    pub fn reply_sizes_scene(&mut self) {
        let complete = self.coverage.replies[size_column(&self.player.unit)].complete();
        for _ in 0..if complete { 2 } else { 6 } {
            if self.player.unit.reply.is_some() {
                // What an earlier scene left is asked for first.
                self.request(u32::MAX, None);
                self.poll(40);
            }
            let column = size_column(&self.player.unit);
            let start = self.random.below(STORE);
            let size = match self.random.below(12) {
                0 => 0,
                1 => STORE + 1 + self.coverage.replies_refused.missing(start % 76),
                _ => 1 + self.coverage.replies[column].missing(start),
            };
            if self.random.once_in(2) {
                self.offer(size);
            }
            let asked = size as u32 + self.random.pick(&[0, 0, 1, 7, 1000]);
            self.request(asked.max(1), None);
            if self.player.unit.reply.is_none() {
                self.offer(size);
            }
            self.poll(40);
            self.tidy();
        }
    }

    /// A message that fills the store, and one byte more.
    pub fn near_full_scene(&mut self) {
        self.quietly(|traffic| {
            traffic.fresh();
            let held = traffic.random.pick(&[1020, 1020, 1020, 1024, 1024, 1023, 1021, 1019, 1012, 1000]);
            let first = traffic.random.between(1, held - 1);
            if traffic.random.once_in(2) {
                traffic.transfer(first as u32, false);
                traffic.transfer((held - first) as u32, false);
            } else {
                traffic.transfer(held as u32, false);
            }
            let room = (STORE - held) as u32;
            match traffic.random.below(9) {
                0 | 8 if room > 0 => traffic.transfer(room, true),
                1 => traffic.transfer(room + 1, true),
                2 => {
                    let size = traffic.random.pick(&HUGE);
                    traffic.transfer(size, true);
                }
                3 => {
                    // The sum comes to 0 to 4 in 32 bits.
                    let size = (u32::MAX - held as u32 + 1).wrapping_add(traffic.random.below(5) as u32);
                    traffic.transfer(size, true);
                }
                4 => {
                    // 12 with old bytes, and 12 before 11.
                    let size = room + 1 + traffic.random.below(4) as u32;
                    let packet = traffic.message_packet(size, true);
                    let mut packet = traffic.with_old_bytes(packet);
                    if traffic.random.once_in(2) {
                        let length = packet.len() + 4;
                        packet = traffic.resized(packet, length);
                    }
                    traffic.say(Call::Out(packet));
                }
                5 if room > 1 => {
                    traffic.transfer(room - 1, false);
                    traffic.transfer(1, true);
                }
                6 => {
                    traffic.say_one_of(&[Kind::OutRequest, Kind::OutTrigger, Kind::OutEmpty, Kind::Take]);
                    traffic.transfer(room.max(1), true);
                }
                _ => traffic.transfer(room + 1, false),
            }
            traffic.state();
        });
        self.say_kind(Kind::Take);
        self.tidy();
    }
}
