//! Numbers of two and four bytes with one bit on, or with one that is not as it should be.

use crate::cells::*;
use crate::line::Call;
use crate::traffic::Traffic;
use crate::unit::{CONTROL_BUFFER, HEADER};

impl Traffic {
    /// A message with one bit too much in its TransferSize, a REQUEST for one bit, and a row with one bit of its numbers
    /// the other way: first the bits that were not seen yet.
    pub fn bits_scene(&mut self) {
        self.quietly(|traffic| {
            traffic.fresh();
            let size = traffic.random.between(1, traffic.player.unit.packet_size - HEADER);
            let mut packet = traffic.message_packet(size as u32, true);
            let above = traffic.coverage.bits_too_long.missing(traffic.random.below(32 - FIRST_TOO_LONG));
            let bit = FIRST_TOO_LONG + above;
            packet[4 + bit / 8] |= 1 << (bit % 8);
            traffic.say(Call::Out(packet));
            traffic.state();

            traffic.fresh();
            let asked = traffic.coverage.bits_asked.missing(traffic.random.below(32));
            traffic.request(1 << asked, None);
            let size = traffic.any_size();
            traffic.offer(size);
            traffic.poll(40);
        });
        self.tidy();
        let row = &SETUP_ROWS[self.random.below(SETUP_ROWS.len())];
        let value = self.random.between(usize::from(row.values.0), usize::from(row.values.1)) as u16;
        let mut packet = row.packet(value, self.random.pick(row.indices), row.length);
        let bit = self.coverage.bits_of_no_row.missing(self.random.below(SETUP_BITS));
        turn_setup_bit(&mut packet, bit);
        self.say(Call::Setup(packet, CONTROL_BUFFER));
    }
}
