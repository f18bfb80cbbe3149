//! Packets on Bulk-OUT with faults, and on each side of a line: first packets, continuing ones, reserved places.

use crate::calls::HUGE;
use crate::cells::*;
use crate::line::Call;
use crate::traffic::Traffic;
use crate::unit::{HEADER, STORE};

impl Traffic {
    /// Two faults in one header, the rarest pairs first.
    pub fn header_faults_scene(&mut self) {
        for _ in 0..3 {
            let cells = self.coverage.header_faults.rarest();
            let (row, column) = cells[self.random.below(6)];
            self.quietly(|traffic| traffic.header_faults_of(FAULTS[row], FAULTS[column]));
            self.tidy();
        }
    }

    pub fn header_faults_of(&mut self, first: u8, second: u8) {
        let p = self.player.unit.packet_size;
        let wanted = |fault: u8| fault == first || fault == second;
        let mut id = self.random.pick(&[1, 1, 2, 128]);
        if wanted(12) {
            id = 1;
        }
        if wanted(13) {
            id = self.random.pick(&[2, 128]);
        }
        self.fresh();
        // The state that the faults need.
        if wanted(13) {
            if id == 2 && self.random.once_in(2) {
                self.request(100, None);
            } else {
                self.transfer(2, false);
            }
        }
        if wanted(12) && self.random.once_in(2) {
            let held = self.any_size();
            self.transfer(held as u32, false);
        }
        let held = self.player.unit.held() as u32;
        let mut packet = match id {
            1 if wanted(12) => {
                let size = match self.random.below(3) {
                    0 => self.random.pick(&HUGE),
                    1 => STORE as u32 + 1 - held,
                    _ => STORE as u32 + 100,
                };
                let packet = self.message_packet(size, true);
                self.resized(packet, p)
            }
            1 => {
                let size = self.random.between(1, p) as u32;
                self.message_packet(size, true)
            }
            2 => self.any_request(),
            _ => self.trigger_packet(),
        };
        if wanted(10) {
            let row = match id {
                1 => 0,
                2 => 1,
                _ => 2,
            };
            let short = wanted(6) || wanted(7) || wanted(9);
            let columns: Vec<usize> =
                (0..RESERVED_COLUMNS.len()).filter(|&column| reserved_allowed(row, column)).collect();
            let (at, bits) = reserved_place(if short { 0 } else { self.random.pick(&columns) });
            packet[at] |= bits;
        }
        if wanted(9) {
            packet[0] = self.unknown_packet()[0];
        }
        if wanted(8) {
            if self.random.once_in(2) {
                (packet[1], packet[2]) = (0, 255);
            } else {
                packet[2] ^= 1 << self.random.below(8);
            }
        }
        if wanted(11) {
            let length = match self.random.below(3) {
                0 if packet.len() > HEADER => packet.len() - 4,
                1 => p,
                _ if packet.len() + 4 <= p => packet.len() + 4,
                _ => p - 4,
            };
            packet = self.resized(packet, length);
        }
        if wanted(7) {
            packet.truncate(if wanted(12) { 8 } else { self.random.pick(&[4, 8]) });
        }
        if wanted(6) {
            if wanted(11) || (first != second && self.random.once_in(2) && packet.len() + 3 <= p) {
                let longer = (packet.len() + self.random.between(1, 3)).min(p - 1);
                packet = self.resized(packet, longer);
            } else {
                packet.truncate(self.random.pick(if wanted(12) { &[9, 10, 11] } else { &[5, 6, 7, 9, 10, 11] }));
            }
        }
        self.say(Call::Out(packet));
        self.state();
    }

    /// First packets on each side of a line.
    pub fn header_edges_scene(&mut self) {
        for _ in 0..3 {
            self.quietly(Traffic::header_edge);
            if self.random.once_in(3) {
                self.state();
            }
            self.tidy();
        }
    }

    pub fn header_edge(&mut self) {
        if !self.player.unit.configured || self.random.once_in(2) {
            self.fresh();
        }
        let p = self.player.unit.packet_size;
        let packet = match self.random.below(29) {
            22..=26 => {
                // Alignment bytes, whatever they are.
                let size = self.random.between(0, 3) * 4 + self.random.between(1, 3);
                self.message_packet(size as u32, true)
            }
            3 => {
                let size = self.random.between(1, p - HEADER);
                let mut packet = self.message_packet(size as u32, true);
                packet.truncate(packet.len() - 4);
                packet
            }
            4 => {
                let size = self.random.between(1, p - HEADER - 4);
                let packet = self.message_packet(size as u32, true);
                let length = packet.len() + 4;
                self.resized(packet, length)
            }
            5 => {
                let size = self.random.between(1, p - HEADER - 4);
                let packet = self.message_packet(size as u32, true);
                self.resized(packet, p)
            }
            6 => {
                let size = self.random.between(p - HEADER - 3, STORE);
                let mut packet = self.message_packet(size as u32, true);
                packet.truncate(p - 4);
                packet
            }
            7 | 8 => {
                let length = self.random.pick(&[16, p]);
                let packet = if self.random.once_in(2) { self.any_request() } else { self.trigger_packet() };
                self.resized(packet, length)
            }
            9 => {
                let mut packet = self.any_message();
                (packet[1], packet[2]) = (0, 255);
                packet
            }
            10 => {
                let mut packet = self.any_request();
                packet[2] ^= 1 << self.random.below(8);
                packet
            }
            11 => self.message_packet(0, true),
            12 => self.request_packet(0, None),
            13 => {
                let size = self.random.pick(&HUGE);
                let packet = self.message_packet(size, true);
                let length = self.random.pick(&[16, p]);
                self.resized(packet, length)
            }
            14 => self.message_packet(STORE as u32 + 1, true),
            15 => {
                let packet = self.any_message();
                let length = p + self.random.pick(&[1, 4]);
                self.resized(packet, length)
            }
            16 | 17 => {
                let size = p - self.random.between(11, 13);
                self.message_packet(size as u32, true)
            }
            18 => {
                // The same bTag twice running.
                let mut packet = self.trigger_packet();
                packet[1] = self.player.unit.out_recent.max(1);
                packet[2] = 255 - packet[1];
                self.say(Call::Out(packet.clone()));
                packet
            }
            0..=2 | 19..=21 => self.unknown_packet(),
            27 => {
                self.small_transfer(false);
                self.trigger_packet()
            }
            _ => Vec::new(),
        };
        self.say(Call::Out(packet));
    }

    /// Packets that continue a transfer, on each side of a line.
    pub fn continuing_faults_scene(&mut self) {
        for _ in 0..2 {
            self.quietly(|traffic| {
                traffic.fresh();
                let p = traffic.player.unit.packet_size;
                if traffic.random.once_in(3) {
                    traffic.transfer(4, false);
                }
                let most = STORE - 4;
                let size = match traffic.random.below(3) {
                    // The transfer ends with its second or third packet.
                    0 => (p - HEADER + traffic.random.between(1, p)).min(most),
                    1 => (2 * p - HEADER + traffic.random.between(0, 16) - 8).min(most),
                    _ => traffic.random.between(p - HEADER + 1, most),
                };
                let packet = traffic.message_packet(size as u32, true);
                traffic.say(Call::Out(packet));
                let due = size + HEADER - p;
                let packets = due.div_ceil(p);
                let good = if traffic.random.once_in(3) { traffic.random.below(packets) } else { packets - 1 };
                traffic.continue_transfer(good);
                if let Some(packet) = traffic.continuing_packet() {
                    let packet = if traffic.random.once_in(8) { packet } else { traffic.damaged_continuing(packet) };
                    traffic.say(Call::Out(packet));
                    traffic.state();
                }
            });
            self.tidy();
        }
    }

    /// One reserved byte or bit, the rarest first.
    pub fn reserved_scene(&mut self) {
        for _ in 0..2 {
            self.quietly(|traffic| {
                traffic.fresh();
                let cells = traffic.coverage.reserved.rarest();
                let (row, column) = cells[traffic.random.below(4)];
                let mut packet = match row {
                    0 => traffic.any_message(),
                    1 => traffic.any_request(),
                    _ => traffic.trigger_packet(),
                };
                let (at, bits) = reserved_place(column);
                packet[at] |= if bits == 0xFF { 1 << traffic.random.below(8) } else { bits };
                traffic.say(Call::Out(packet));
                traffic.state();
            });
            self.tidy();
        }
    }
}
