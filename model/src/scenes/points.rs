//! Every call at every point: the points of the split and of each endpoint are made.

use crate::cells::*;
use crate::line::Call;
use crate::traffic::Traffic;
use crate::unit::{HEADER, STORE};

impl Traffic {
    /// Brings Bulk-IN of an idle unit to a point of the table `call x point of Bulk-IN`.
    pub fn reach_in_point(&mut self, column: usize) {
        let p = self.player.unit.packet_size;
        match column {
            0 => {}
            1 => {
                self.say_kind(Kind::Offer);
            }
            2 => {
                let size = self.random.between(2, STORE);
                self.offer(size);
                let asked = self.random.between(1, size - 1);
                self.request(asked as u32, None);
                self.poll(40);
            }
            3 => {
                self.request(1000, None);
            }
            4 => self.send_packets(0, false),
            5 => {
                let packets = self.random.between(1, STORE / p);
                self.send_packets(packets, false);
            }
            6 => {
                let packets = self.random.between(1, STORE / p);
                self.send_packets(packets, true);
            }
            7 | 8 => {
                let point = self.random.between(3, 6);
                self.reach_in_point(point);
                self.say_kind(Kind::AbortIn);
                if column == 8 {
                    self.say_kind(Kind::Offer);
                }
            }
            9 => {
                let point = self.random.between(0, 2);
                self.reach_in_point(point);
                self.say_kind(Kind::SetFeatureIn);
            }
            _ if self.random.once_in(3) => {
                self.say_kind(Kind::SetFeatureIn);
                self.say_kind(Kind::OutRequest);
            }
            _ => {
                let point = self.random.between(3, 8);
                self.reach_in_point(point);
                self.say_kind(Kind::SetFeatureIn);
            }
        }
    }

    /// Brings Interrupt-IN of a unit with nothing waiting to a point of the table `call x point of Interrupt-IN`.
    pub fn reach_interrupt_point(&mut self, column: usize) {
        let halted = column >= 5;
        let halted_first = self.random.once_in(2);
        if halted && halted_first {
            self.say_kind(Kind::SetFeatureInterrupt);
        }
        match column % 5 {
            0 => {}
            1 => {
                self.say_kind(Kind::ServiceRequest);
            }
            2 => {
                if self.random.once_in(2) {
                    self.say_kind(Kind::Status);
                }
                self.say_kind(Kind::ReadStatusByte);
            }
            point => {
                self.say_one_of(&[Kind::ServiceRequest, Kind::ReadStatusByte]);
                self.say_kind(Kind::ServiceRequest);
                if point == 4 {
                    self.say_kind(Kind::Status);
                }
            }
        }
        if halted && !halted_first {
            self.say_kind(Kind::SetFeatureInterrupt);
        }
    }

    /// Brings an idle unit to a column of the table `call x split state`.
    pub fn reach_split(&mut self, column: usize) {
        match column {
            0 => {}
            1 => {
                self.reach_out_point(2);
                self.say_kind(Kind::AbortOut);
            }
            2 | 3 => {
                self.reach_in_point(3);
                self.say_kind(Kind::AbortIn);
                if column == 3 {
                    self.say_kind(Kind::In);
                }
            }
            4 => {
                self.reach_in_point(3);
                self.say_kind(Kind::InitiateClear);
            }
            _ => {
                self.say_kind(Kind::InitiateClear);
            }
        }
    }

    /// Brings Bulk-OUT of an idle unit to a point of the table `call x point of Bulk-OUT`.
    pub fn reach_out_point(&mut self, column: usize) {
        let p = self.player.unit.packet_size;
        match column {
            2 | 4 => {
                if column == 4 {
                    self.small_transfer(false);
                }
                let size = self.random.between(p - HEADER + 1, STORE - 12);
                let packet = self.message_packet(size as u32, true);
                self.say(Call::Out(packet));
                let packets = self.random.below(2);
                let due = size + HEADER - p;
                if packets * p < due {
                    self.continue_transfer(packets);
                }
            }
            3 => self.small_transfer(false),
            5 | 7 => {
                self.small_transfer(true);
                if column == 7 {
                    self.say_kind(Kind::SetFeatureOut);
                }
            }
            6 => {
                self.say_one_of(&[Kind::SetFeatureOut, Kind::OutUnknown]);
            }
            _ => {}
        }
    }

    /// Every call at every point: the point is made, and the calls that it has met least follow.
    pub fn points_scene(&mut self) {
        for _ in 0..2 {
            self.quietly(|traffic| {
                traffic.fresh();
                if traffic.random.once_in(4) {
                    traffic.say_kind(Kind::RenOn);
                }
                if traffic.random.once_in(2) {
                    let column = traffic.random.below(INTERRUPT_COLUMNS.len());
                    traffic.reach_interrupt_point(column);
                }
                let column = traffic.random.below(11);
                traffic.reach_in_point(column);
                let column = traffic.random.between(1, 7);
                traffic.reach_out_point(column);
                let splits = [Kind::AbortOut, Kind::AbortIn, Kind::InitiateClear];
                if traffic.random.once_in(3) {
                    traffic.say_one_of(&splits);
                    if traffic.random.once_in(2) {
                        traffic.say_kind(Kind::In);
                    }
                }
                for _ in 0..traffic.random.between(1, 4) {
                    traffic.stray();
                }
                traffic.state();
            });
        }
    }
}
