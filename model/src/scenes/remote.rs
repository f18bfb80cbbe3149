//! The table of remote/local states.

use crate::cells::*;
use crate::line::Call;
use crate::traffic::Traffic;
use crate::unit::STORE;

impl Traffic {
    /// The table of remote/local states, the rarest cells first, with `state` after each event.
    pub fn remote_scene(&mut self) {
        for _ in 0..4 {
            let cells = self.coverage.remote.rarest();
            let (row, column) = cells[self.random.below(6)];
            self.quietly(|traffic| {
                traffic.fresh();
                if traffic.random.once_in(4) {
                    traffic.request(100, None);
                }
                // To the row: the order in which the states are left is drawn.
                if row >= 1 {
                    traffic.say_kind(Kind::RenOn);
                }
                let remote_first = traffic.random.once_in(2);
                if row == 2 || (row == 4 && remote_first) {
                    traffic.transfer(1, true);
                    traffic.take();
                }
                if row >= 3 {
                    traffic.say_kind(Kind::LocalLockout);
                }
                if row == 4 && !remote_first {
                    traffic.transfer(1, true);
                    traffic.take();
                }
                if REMOTE_EVENTS[column] == "in3" {
                    traffic.say_one_of(&[Kind::ServiceRequest, Kind::ReadStatusByte]);
                }
                match REMOTE_EVENTS[column] {
                    "MSG_OUT" => {
                        let packet = traffic.any_message();
                        traffic.send(Call::Out(packet));
                    }
                    "MSG_OUT, old bytes" => {
                        let size = traffic.random.pick(&[1, 2, 3, 5, 6, 7, 49]);
                        let end = traffic.random.once_in(2);
                        let packet = traffic.message_packet(size, end);
                        let packet = traffic.with_old_bytes(packet);
                        traffic.send(Call::Out(packet));
                    }
                    "6 to 10" => {
                        let mut packet = traffic.any_message();
                        match traffic.random.below(3) {
                            0 => packet[2] ^= 1,
                            1 => packet[3] = 1,
                            _ => packet.truncate(8),
                        }
                        traffic.send(Call::Out(packet));
                    }
                    "12" => {
                        let packet = traffic.message_packet(STORE as u32 + 1, true);
                        traffic.send(Call::Out(packet));
                    }
                    "11" => {
                        let packet = traffic.message_packet(6, true);
                        let length = traffic.random.pick(&[16, 24]);
                        let packet = traffic.resized(packet, length);
                        traffic.send(Call::Out(packet));
                    }
                    event => {
                        let kind = match event {
                            "REQUEST" => Kind::OutRequest,
                            "TRIGGER" => Kind::OutTrigger,
                            "GO_TO_LOCAL" => Kind::GoToLocal,
                            "panel" => Kind::Local,
                            "LOCKOUT" => Kind::LocalLockout,
                            "REN 1" => Kind::RenOn,
                            "REN 0" => Kind::RenOff,
                            "suspend" => Kind::Suspend,
                            "reset" => Kind::Reset,
                            "CONFIG 0" => Kind::Unconfigure,
                            "CONFIG 1" => Kind::Configure,
                            "CLEAR" => Kind::InitiateClear,
                            "READ_STATUS" => Kind::ReadStatusByte,
                            "in3" => Kind::In3,
                            "0x83 halt" => {
                                traffic.random.pick(&[Kind::SetFeatureInterrupt, Kind::ClearFeatureInterrupt])
                            }
                            _ => traffic.random.pick(&[Kind::Status, Kind::ServiceRequest]),
                        };
                        if let Some(call) = traffic.make(kind) {
                            traffic.send(call);
                        }
                    }
                }
                traffic.state();
            });
        }
    }
}
