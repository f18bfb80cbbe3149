//! Packets on Bulk-OUT, and the sizes and bytes in them.

use crate::cells::alignment_bytes;
use crate::traffic::Traffic;
use crate::unit::{HEADER, STORE};

impl Traffic {
    pub fn next_tag(&mut self) -> u8 {
        self.tag = match self.random.below(24) {
            0 => self.player.unit.out_recent.max(1),
            1 => self.random.between(1, 255) as u8,
            _ => self.tag % 255 + 1,
        };
        self.tag
    }

    pub fn data(&mut self, length: usize) -> Vec<u8> {
        match self.random.below(5) {
            0 => (0..length).map(|_| self.random.byte()).collect(),
            // Counting up to a prime number, so that a lost or doubled byte shows.
            1 | 2 => (0..length).map(|at| (at % 251) as u8 + 1).collect(),
            3 => (0..length).map(|at| if at % 11 == 10 { 0x0A } else { b'a' + (at % 26) as u8 }).collect(),
            _ => vec![self.random.pick(&[0x00, 0xFF, 0x0A, 0xA5]); length],
        }
    }

    pub fn header(&mut self, id: u8, size: u32, attributes: u8, byte_9: u8) -> Vec<u8> {
        let tag = self.next_tag();
        let mut packet = vec![id, tag, 255 - tag, 0];
        packet.extend_from_slice(&size.to_le_bytes());
        packet.extend_from_slice(&[attributes, byte_9, 0, 0]);
        packet
    }

    /// The first packet of a transfer of `size` bytes: whole if it fits, else P bytes.
    pub fn message_packet(&mut self, size: u32, end: bool) -> Vec<u8> {
        let p = self.player.unit.packet_size;
        let mut packet = self.header(1, size, u8::from(end), 0);
        let data = (size as usize).min(p - HEADER);
        packet.extend(self.data(data));
        self.aligned(packet)
    }

    /// The next good packet of the open transfer.
    pub fn continuing_packet(&mut self) -> Option<Vec<u8>> {
        let transfer = self.player.unit.out_transfer.as_ref()?;
        let due = transfer.size - transfer.got;
        let p = self.player.unit.packet_size;
        let data = self.data(due.min(p));
        Some(self.aligned(data))
    }

    /// A packet with its alignment bytes: 0 half of the time, else anything, first the values that none had yet.
    fn aligned(&mut self, mut packet: Vec<u8>) -> Vec<u8> {
        let zero = self.random.once_in(2);
        for place in 0..packet.len().div_ceil(4) * 4 - packet.len() {
            let value = self.coverage.alignment[place].missing(self.random.below(256)) as u8;
            packet.push(if zero { 0 } else { self.random.pick(&[0, value, value, value]) });
        }
        packet
    }

    /// A good packet with an alignment byte that is not 0, where it has one.
    pub fn with_old_bytes(&mut self, mut packet: Vec<u8>) -> Vec<u8> {
        let count = alignment_bytes(&self.player.unit, &packet).len();
        if count > 0 {
            let at = packet.len() - self.random.between(1, count);
            packet[at] = self.random.between(1, 255) as u8;
        }
        packet
    }

    /// A packet cut to a length, or with bytes too many: 0 half of the time, else anything.
    pub fn resized(&mut self, mut packet: Vec<u8>, length: usize) -> Vec<u8> {
        let zero = self.random.once_in(2);
        packet.truncate(length);
        while packet.len() < length {
            packet.push(if zero { 0 } else { self.random.byte() });
        }
        packet
    }

    pub fn request_packet(&mut self, asked: u32, term_char: Option<u8>) -> Vec<u8> {
        match term_char {
            Some(term_char) => self.header(2, asked, 2, term_char),
            None => {
                let ignored = self.random.pick(&[0, 0, 0x0A, 0xFF]);
                self.header(2, asked, 0, ignored)
            }
        }
    }

    pub fn trigger_packet(&mut self) -> Vec<u8> {
        self.header(128, 0, 0, 0)
    }

    pub fn any_asked(&mut self) -> u32 {
        let left = self.player.unit.reply.as_ref().map_or(0, |reply| reply.unsent().len()) as u32;
        let p = self.player.unit.packet_size as u32;
        match self.random.below(12) {
            0 => 1,
            1 => left.saturating_sub(1).max(1),
            2 => left.max(1),
            3 => left + 1,
            4 => p - 12,
            5 => p * self.random.between(1, 3) as u32 - self.random.between(11, 13) as u32,
            6 => u32::MAX,
            7 => 0x7FFF_FFFF,
            8 => self.random.pick(&[20_480, 0x0001_0000, 0x0001_0001, 0x0100_0000, 0x8000_0002, 0xFFFF_0001]),
            9 => self.random.between(1, 1100) as u32,
            _ => 1000,
        }
    }

    pub fn any_request(&mut self) -> Vec<u8> {
        let asked = self.any_asked();
        let term_char = if self.random.once_in(4) { Some(self.random.pick(&[0x0A, b'a', 0x00, 0x01])) } else { None };
        self.request_packet(asked, term_char)
    }

    /// A size from 1 to 1,024, often one near a boundary.
    pub fn any_size(&mut self) -> usize {
        let p = self.player.unit.packet_size;
        let size = match self.random.below(8) {
            0 => self.random.between(1, 8),
            1 => p - HEADER + self.random.below(5) - 2,
            2 => p * self.random.between(1, 1024 / p) - HEADER + self.random.below(5) - 2,
            3 => self.random.between(1019, 1024),
            4 => self.random.between(1, STORE),
            _ => self.random.between(1, 2 * p),
        };
        size.clamp(1, STORE)
    }

    /// A first packet of a message that fits, if anything does.
    pub fn any_message(&mut self) -> Vec<u8> {
        let room = STORE - self.player.unit.held().min(STORE);
        let size = match self.random.below(3) {
            0 => self.random.between(1, 12),
            _ => self.any_size(),
        };
        let end = !self.random.once_in(3);
        self.message_packet(size.min(room.max(1)) as u32, end)
    }

    pub fn unknown_packet(&mut self) -> Vec<u8> {
        let start = self.random.below(self.coverage.ids_refused.len());
        let missing = self.coverage.ids_refused.missing(start) as u8;
        let id = [1, 2, 128].iter().fold(missing, |id, &known| if id >= known { id + 1 } else { id });
        match self.random.below(4) {
            0 => {
                let length = self.random.between(1, self.player.unit.packet_size);
                let mut packet: Vec<u8> = (0..length).map(|_| self.random.byte()).collect();
                packet[0] = id;
                packet
            }
            _ => self.header(id, 4, 0, 0),
        }
    }

    /// A continuing packet of a length around the right one, or any: mostly 6 or 11.
    pub fn damaged_continuing(&mut self, packet: Vec<u8>) -> Vec<u8> {
        let p = self.player.unit.packet_size;
        let good = packet.len();
        let length = match self.random.below(8) {
            0 if good > 4 => good - 4,
            1 if good > p - 4 => p - 4,
            2 => (good + 4).min(p),
            3 => p,
            4 => 0,
            5 => good - self.random.between(1, 3),
            6 if good + 3 <= p => good + self.random.between(1, 3),
            _ => self.random.between(0, p),
        };
        self.resized(packet, length)
    }
}
