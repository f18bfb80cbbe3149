//! A Bulk-OUT packet is counted.

use super::observe::count_faults;
use super::Coverage;
use crate::cells::*;
use crate::line::Answered;
use crate::unit::{Split, Unit, HEADER, STORE};

impl Coverage {
    pub(super) fn observe_out(&mut self, before: &Unit, packet: &[u8], answered: &Answered, after: &Unit) {
        let number = answered.number as u8;
        let length = packet.len();
        let open = before.out_transfer.is_some();
        let empty = packet.is_empty();
        self.observe_alignment(before, packet, number, after);
        self.boundaries(
            before,
            &[
                (number == 0 && length == before.packet_size, "OUT packet of P"),
                (number == 3 && length == before.packet_size + 1, "OUT packet of P + 1 is 3"),
                (number == 3 && length == before.packet_size + 4, "OUT packet of P + 4 is 3"),
                (empty && number == 2, "empty packet, unconfigured is 2"),
                (empty && number == 4, "empty packet, halted is 4"),
                (empty && number == 5, "empty packet, message ready is 5"),
                (empty && number == 11, "empty packet inside a transfer is 11"),
                (empty && number == 0 && before.held() == 0, "empty packet, idle"),
                (empty && number == 0 && before.held() > 0, "empty packet between transfers"),
            ],
        );
        if number == 5 && !empty {
            match packet[0] {
                2 => self.boundary(before, "REQUEST with message ready is 5"),
                128 => self.boundary(before, "TRIGGER with message ready is 5"),
                1 => {}
                _ => self.boundary(before, "rubbish with message ready is 5"),
            }
        }
        if matches!(number, 2..=5) || (empty && !open) {
            return;
        }
        match &before.out_transfer {
            Some(transfer) => self.observe_continuing(before, packet, transfer.size - transfer.got, number, after),
            None => self.observe_header(before, packet, answered, after),
        }
    }

    fn observe_continuing(&mut self, before: &Unit, packet: &[u8], due: usize, number: u8, after: &Unit) {
        let length = packet.len();
        let p = before.packet_size;
        let end = due.div_ceil(4) * 4;
        let alone = number == 11 && length % 4 == 0;
        let completed = number == 0 && after.out_transfer.is_none();
        self.boundaries(
            before,
            &[
                (completed && length == p, "transfer ends on a later full packet"),
                (alone && length + 4 == end && length > 0, "continuing packet short by 4"),
                (alone && length == end + 4, "continuing packet long by 4"),
                (alone && length == p && end < p, "continuing packet P long where less is due"),
                (alone && length == p - 4 && end > length, "continuing packet of P - 4 where more is due"),
            ],
        );
        let present = continuing_faults(before, packet);
        count_faults(&mut self.continuing_faults, &present, number, &CONTINUING);
    }

    fn observe_header(&mut self, before: &Unit, packet: &[u8], answered: &Answered, after: &Unit) {
        let number = answered.number as u8;
        let length = packet.len();
        let p = before.packet_size;
        let id = packet[0];
        let present = header_faults(before, packet);
        count_faults(&mut self.header_faults, &present, number, &FAULTS);
        let alone = present.iter().filter(|&&fault| fault).count() == 1;
        if number == 9 {
            let known = [1, 2, 128].iter().filter(|&&known| known < id).count();
            self.ids_refused.see(usize::from(id) - known);
        }
        if length < HEADER {
            return;
        }
        let tag = packet[1];
        let size = u32::from_le_bytes([packet[4], packet[5], packet[6], packet[7]]);
        if alone && number == 10 {
            let places = reserved_places(packet);
            if let [column] = (0..places.len()).filter(|&place| places[place]).collect::<Vec<_>>()[..] {
                self.reserved.hit(
                    match id {
                        1 => 0,
                        2 => 1,
                        _ => 2,
                    },
                    column,
                );
            }
        }
        let accepted = number == 0;
        let in_open = before.in_transfer.is_some();
        let held = before.held();
        let lone = |fault: u8| alone && number == fault;
        let abort_in = matches!(before.split, Split::AbortIn { .. });
        let unfinished = before.message_unfinished();
        let message_too_long = id == 1 && number == 12;
        self.boundaries(
            before,
            &[
                (lone(8) && tag == 0 && packet[2] == 255, "bTag 0 with its inverse is 8"),
                (lone(8) && tag != 0 && (packet[2] ^ (255 - tag)).count_ones() == 1, "bTagInverse off in one bit is 8"),
                (accepted && tag == before.out_recent, "the same bTag twice running"),
                (accepted && id == 1 && in_open, "message with IN transfer open"),
                (accepted && id == 128 && in_open, "TRIGGER with IN transfer open"),
                (accepted && id == 2 && packet[8] == 0 && packet[9] != 0, "TermChar off and its byte not 0"),
                (accepted && id == 2 && abort_in, "REQUEST between poll and CHECK of an abort-IN"),
                (accepted && id == 2 && before.in_halted, "REQUEST with Bulk-IN halted"),
                (lone(13) && id == 2 && in_open && !before.owed && !unfinished, "REQUEST with IN transfer open is 13"),
                (lone(13) && id == 2 && before.owed && !unfinished, "REQUEST with packet owed is 13"),
                (lone(13) && id == 2 && !in_open, "REQUEST with message unfinished is 13"),
                (lone(13) && id == 128, "TRIGGER with message unfinished is 13"),
                (lone(11) && id == 2 && length == 16, "REQUEST of 16 bytes is 11"),
                (lone(11) && id == 2 && length == p, "REQUEST of P bytes is 11"),
                (lone(11) && id == 128 && length == 16, "TRIGGER of 16 bytes is 11"),
                (lone(11) && id == 128 && length == p, "TRIGGER of P bytes is 11"),
                (lone(10) && id == 1 && size == 0, "message of TransferSize 0 is 10"),
                (lone(10) && id == 2 && size == 0, "REQUEST of TransferSize 0 is 10"),
                (message_too_long && held == 0 && size == 1025, "TransferSize 1,025 is 12"),
                (message_too_long && held == 1020 && size == 5, "1,020 held and 5 more is 12"),
                (message_too_long && held == 1024 && size == 1, "1,024 held unfinished and 1 more is 12"),
                (
                    message_too_long && size > 0xFFFF && held + usize::from(size as u16) <= STORE,
                    "TransferSize with a low half that would do is 12",
                ),
                (message_too_long && size == u32::MAX, "TransferSize 2^32 - 1 is 12"),
                (message_too_long && held == 0 && size > u32::MAX - 15, "TransferSize 2^32 - 15 or more is 12"),
                (message_too_long && (held as u32).checked_add(size).is_none(), "held + TransferSize passes 2^32: 12"),
            ],
        );
        if accepted {
            self.tags.see(usize::from(tag) - 1);
        }
        if message_too_long && held == 0 && (1025..=1100).contains(&size) {
            self.too_long[size_column(before)].see(size as usize - 1025);
        }
        if let (true, Some(bit)) = (message_too_long && held == 0, bit_too_long(packet)) {
            self.bits_too_long.see(bit);
        }
        if accepted && id == 2 && size.is_power_of_two() {
            self.bits_asked.see(size.trailing_zeros() as usize);
        }
        if id != 1 || size as usize > STORE {
            return;
        }
        let size = size as usize;
        let end = HEADER + size.div_ceil(4) * 4;
        let whole = accepted && after.out_transfer.is_none();
        self.boundaries(
            before,
            &[
                (accepted && size == STORE, "TransferSize 1,024 begins"),
                (accepted && held == 1020 && size == 4, "1,020 held and 4 more"),
                (whole && size == p - 13, "size P - 13 in one packet"),
                (whole && size == p - 12, "size P - 12 in one full packet"),
                (accepted && !whole && size == p - 11, "size P - 11 takes one more"),
                (lone(11) && length + 4 == end, "first packet short by 4"),
                (lone(11) && length == end + 4, "first packet long by 4"),
                (lone(11) && length == p && end < p, "first packet P long where less is due"),
                (lone(11) && length == p - 4 && end > length, "first packet of P - 4 where more is due"),
            ],
        );
    }
}
