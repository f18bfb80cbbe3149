//! Bulk-OUT: a packet, which begins a transfer or continues one, and the data that it brings.

use super::header::Header;
use super::{Answer, Fault, InTransfer, Message, Number, OutTransfer, Tells, Unit, HEADER, STORE};

impl Unit {
    /// The Bulk-OUT packet call.
    pub fn bulk_out(&mut self, packet: &[u8]) -> Answer {
        // "Bulk calls: 1, 2, 3, 4, 5"
        if !self.configured {
            return Answer::refused(Number::Unconfigured);
        }
        if packet.len() > self.packet_size {
            return Answer::refused(Number::WrongSize);
        }
        if self.out_halted {
            return Answer::refused(Number::Halted);
        }
        if self.message_ready() {
            return Answer::refused(Number::Wait);
        }
        let result = if self.out_transfer.is_some() {
            self.continuing(packet)
        } else if packet.is_empty() {
            // "Between transfers an empty packet is answered 0 and changes nothing"
            Ok(None)
        } else {
            self.header(packet)
        };
        match result {
            Ok(tells) => Answer { tells, ..Answer::done() },
            // 6 to 13 leave "OUT halted"; a refused header "moves neither tag nor state but for the halt".
            Err(number) => {
                self.halt_bulk_out();
                Answer::refused(number)
            }
        }
    }

    /// A packet that begins a transfer, after 6 to 10: 13, 12, 11.
    fn header(&mut self, packet: &[u8]) -> Result<Option<Tells>, Number> {
        match Header::read(&self.as_read(packet, 7, Fault::TopByteLost))? {
            Header::Message { tag, size, end } => {
                let limit = match self.fault {
                    Some(Fault::LengthOffByOne) => STORE + 1,
                    _ => STORE,
                };
                // The sum is taken in 64 bits: TransferSize may be near 2^32.
                if self.held() as u64 + u64::from(size) > limit as u64 {
                    return Err(Number::TooLong);
                }
                let size = size as usize;
                let (data, alignment) = self.parts_of(packet, HEADER, size)?;
                // Accepted, whatever the alignment bytes are: the tag moves, and the remote/local state.
                if !self.goes_wrong(Fault::TagKeptOverAlignment, alignment) {
                    self.out_recent = tag;
                    self.headed();
                }
                self.out_transfer = Some(OutTransfer { tag, size, got: 0, end });
                self.receive(data, alignment);
                Ok(None)
            }
            Header::Request { tag, asked, term_char } => {
                // "a REQUEST while an IN transfer is open, or a REQUEST or TRIGGER while a message is unfinished"
                if self.in_transfer.is_some() || self.message_unfinished() {
                    return Err(Number::OutOfTurn);
                }
                // "MsgID 2 and 128 take a packet of exactly 12, else 11."
                if packet.len() != HEADER {
                    return Err(Number::WrongLength);
                }
                self.out_recent = tag;
                self.in_recent = tag;
                self.in_transfer = Some(InTransfer { tag, asked, term_char, sending: None });
                Ok(None)
            }
            Header::Trigger { tag } => {
                if self.message_unfinished() {
                    return Err(Number::OutOfTurn);
                }
                if packet.len() != HEADER {
                    return Err(Number::WrongLength);
                }
                self.out_recent = tag;
                Ok(Some(Tells::Trigger))
            }
        }
    }

    /// "a continuing packet 6, 11", and then none: "14 is no longer given" (02, 2).
    fn continuing(&mut self, packet: &[u8]) -> Result<Option<Tells>, Number> {
        if packet.len() % 4 != 0 {
            return Err(Number::NotInFours);
        }
        // "Between transfers an empty packet is answered 0 ..; inside one it is 11."
        let Some(transfer) = &self.out_transfer else { unreachable!("a continuing packet has an open transfer") };
        let due = transfer.size - transfer.got;
        let (data, alignment) = self.parts_of(packet, 0, due)?;
        self.receive(data, alignment);
        Ok(None)
    }

    /// The data bytes of a packet that has them from `start` on, `due` bytes of the transfer being due, and the alignment
    /// bytes behind them: 11.
    fn parts_of<'packet>(
        &self,
        packet: &'packet [u8],
        start: usize,
        due: usize,
    ) -> Result<(&'packet [u8], &'packet [u8]), Number> {
        let body = &packet[start..];
        // "TransferSize data bytes and 0 to 3 alignment bytes up to a multiple of 4"
        let aligned = due.div_ceil(4) * 4;
        // "More than that is 11. A packet shorter than P that ends too soon is 11."
        if body.len() > aligned || (body.len() < aligned && packet.len() < self.packet_size) {
            return Err(Number::WrongLength);
        }
        let (data, alignment) = body.split_at(due.min(body.len()));
        // "Alignment bytes may be anything." (02, 2)
        if self.goes_wrong(Fault::AlignmentRefused, alignment) {
            return Err(Number::WrongLength);
        }
        Ok((data, alignment))
    }

    /// Whether a fault in what becomes of alignment bytes is switched on, and one of these is not 0.
    fn goes_wrong(&self, fault: Fault, alignment: &[u8]) -> bool {
        self.fault == Some(fault) && alignment.iter().any(|&byte| byte != 0)
    }

    /// Data of the open transfer: it goes to the message, and the transfer may be complete with it. The alignment bytes
    /// "reach no message and no count" (02, 2).
    fn receive(&mut self, data: &[u8], alignment: &[u8]) {
        let mut bytes = match std::mem::replace(&mut self.message, Message::None) {
            Message::Unfinished(bytes) => bytes,
            _ => Vec::new(),
        };
        bytes.extend_from_slice(data);
        if self.goes_wrong(Fault::AlignmentHandedOver, alignment) {
            bytes.extend_from_slice(alignment);
        }
        let Some(transfer) = &mut self.out_transfer else { unreachable!("data comes in an open transfer") };
        transfer.got += data.len();
        let complete = transfer.got == transfer.size;
        // "When a transfer with EOM completes, the message is ready until taken; without EOM the next transfer
        // continues it."
        self.message = if complete && transfer.end { Message::Ready(bytes) } else { Message::Unfinished(bytes) };
        if complete {
            self.out_transfer = None;
        }
    }
}
