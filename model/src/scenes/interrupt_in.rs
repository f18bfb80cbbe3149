//! The status byte, service requests and the polls of 0x83.

use crate::cells::*;
use crate::traffic::Traffic;

impl Traffic {
    /// The thermostat sets its status byte and the host polls 0x83, each when it likes.
    pub fn interrupt_scene(&mut self) {
        if self.random.once_in(3) {
            self.fresh();
        }
        if self.random.once_in(3) {
            self.say_kind(Kind::SetFeatureOut);
            self.say_kind(Kind::SetFeatureIn);
        }
        if self.random.once_in(2) {
            // The poll that brings a packet queues the request kept behind it.
            self.say_kind(Kind::ClearFeatureInterrupt);
            self.say_one_of(&[Kind::ServiceRequest, Kind::ReadStatusByte]);
            self.say_kind(Kind::ServiceRequest);
            self.say_kind(Kind::In3);
            self.say_one_of(&[
                Kind::In3,
                Kind::ReadStatusByte,
                Kind::Status,
                Kind::ServiceRequest,
                Kind::InitiateClear,
            ]);
        }
        for _ in 0..self.random.between(4, 24) {
            self.say_one_of(&[
                Kind::In3,
                Kind::In3,
                Kind::In3,
                Kind::In3,
                Kind::In3Small,
                Kind::ServiceRequest,
                Kind::ServiceRequest,
                Kind::ServiceRequest,
                Kind::Status,
                Kind::Status,
                Kind::ReadStatusByte,
                Kind::ReadStatusByte,
                Kind::ReadStatusByte,
                Kind::SetFeatureInterrupt,
                Kind::ClearFeatureInterrupt,
                Kind::ClearFeatureInterrupt,
                Kind::GetStatusInterrupt,
                Kind::InitiateClear,
                Kind::CheckClear,
                Kind::ClearFeatureOut,
            ]);
            if self.random.once_in(10) {
                self.say_one_of(&[Kind::Suspend, Kind::Configure, Kind::OutMessage, Kind::Offer, Kind::OutRequest]);
            }
        }
        self.say_kind(Kind::ClearFeatureInterrupt);
        self.say_kind(Kind::In3);
        self.say_kind(Kind::In3);
        self.tidy();
    }

    /// What comes to Interrupt-IN in each split, the rarest first.
    pub fn interrupt_events_scene(&mut self) {
        for _ in 0..3 {
            let cells = self.coverage.interrupt_events.rarest();
            let (row, column) = cells[self.random.below(6)];
            self.quietly(|traffic| {
                traffic.fresh();
                let running = traffic.random.between(1, 4);
                let any = traffic.random.below(5);
                let (point, kind) = match INTERRUPT_EVENTS[row] {
                    "in3 brings a request" => (1, Kind::In3),
                    "in3 brings a read" => (2, Kind::In3),
                    "in3 brings a kept request" | "in3 queues the kept request" => (3, Kind::In3),
                    "in3 queues nothing, the request taken back" => (4, Kind::In3),
                    "in3 is 3" => (any, Kind::In3Small),
                    "in3 is 4, a packet waits" => (running + 5, Kind::In3),
                    "in3 is 4, none waits" => (5, Kind::In3),
                    "in3 is 5" => (0, Kind::In3),
                    "request queued" => (0, Kind::ServiceRequest),
                    "request kept" => (traffic.random.between(1, 2), Kind::ServiceRequest),
                    "request made again" => (traffic.random.pick(&[3, 4, 8, 9]), Kind::ServiceRequest),
                    "request queued, halted" => (5, Kind::ServiceRequest),
                    "request kept, halted" => (traffic.random.between(6, 7), Kind::ServiceRequest),
                    "bit 6 set off, a request kept" => (traffic.random.pick(&[3, 8]), Kind::Status),
                    "bit 6 off, a packet waits" => (traffic.random.between(1, 2), Kind::Status),
                    "bit 6 off, none waits" => (0, Kind::Status),
                    "READ_STATUS_BYTE 01" => (0, Kind::ReadStatusByte),
                    "READ_STATUS_BYTE 20" => (running, Kind::ReadStatusByte),
                    "READ_STATUS_BYTE 01, halted" => (5, Kind::ReadStatusByte),
                    "READ_STATUS_BYTE 20, halted" => (running + 5, Kind::ReadStatusByte),
                    "SET_FEATURE 0x83" => (any, Kind::SetFeatureInterrupt),
                    "SET_FEATURE 0x83, halted" => (any + 5, Kind::SetFeatureInterrupt),
                    "CLEAR_FEATURE 0x83" => (any, Kind::ClearFeatureInterrupt),
                    "CLEAR_FEATURE 0x83, halted" => (any + 5, Kind::ClearFeatureInterrupt),
                    "GET_STATUS 0x83" => (any, Kind::GetStatusInterrupt),
                    _ => (any + 5, Kind::GetStatusInterrupt),
                };
                let point_first = traffic.random.once_in(2);
                if point_first {
                    traffic.reach_interrupt_point(point);
                }
                traffic.reach_split(column);
                if !point_first {
                    traffic.reach_interrupt_point(point);
                }
                traffic.say_kind(kind);
                traffic.state();
                // What waits, or was kept, still comes.
                traffic.say_one_of(&[
                    Kind::In3,
                    Kind::In3,
                    Kind::ReadStatusByte,
                    Kind::ClearFeatureInterrupt,
                    Kind::InitiateClear,
                    Kind::Status,
                ]);
                traffic.say_kind(Kind::In3);
                traffic.say_kind(Kind::In3);
                if traffic.random.once_in(2) {
                    traffic.stray();
                }
                traffic.state();
            });
            self.tidy();
        }
    }
}
