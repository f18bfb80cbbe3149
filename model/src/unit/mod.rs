//! The unit of document 01 and of requests 1 to 3 of document 02: what it holds, power-on, and what several calls lean
//! on. Each kind of call has a file of its own.
//!
//! Written from the papers and the readings of them, and from nothing else. Words in quotation marks are the papers'.
//! No call makes a unit unsound, so nothing here answers 1; `sound` is there to try that.

mod answer;
mod bulk_in;
mod bulk_out;
mod bus;
mod fault;
mod header;
mod interrupt_in;
mod parts;
mod remote;
mod rows;
mod setup;
mod sound;
#[cfg(test)]
mod sound_tests;
mod splits;
mod thermostat;

pub use answer::{Answer, Number, Tells};
pub use fault::Fault;
pub use parts::{InTransfer, Message, OutTransfer, Remote, Reply, Sending, Split};
pub use sound::Clause;

/// "a message store of 1,024 bytes .. and a reply store of the same size"
pub const STORE: usize = 1024;
/// "with Bulk-OUT at endpoint 0x01 and Bulk-IN at 0x82", as wIndex gives them
pub const BULK_OUT: u16 = 0x01;
pub const BULK_IN: u16 = 0x82;
/// "Add endpoint 0x83" (02, 1)
pub const INTERRUPT_IN: u16 = 0x83;
/// bNotify1 and bNotify2 (001, tables 6 and 7)
pub const NOTIFY: usize = 2;
/// Bit 6 of the status byte, RQS in 001, which asks for service
pub const BIT_6: u8 = 0x40;
/// bNotify1 of a service request
pub const SERVICE_REQUEST: u8 = 0x81;
/// "A header is 12 bytes"
pub const HEADER: usize = 12;
/// "control buffer under 24" is refused, for every setup packet
pub const CONTROL_BUFFER: usize = 24;

#[derive(Clone, Debug, PartialEq, Eq)]
pub struct Unit {
    /// P
    pub packet_size: usize,
    pub configured: bool,
    pub ren: bool,
    pub remote: Remote,
    pub status: u8,
    pub out_halted: bool,
    pub in_halted: bool,
    pub interrupt_halted: bool,
    /// "One packet waits at a time."
    pub waiting: Option<[u8; NOTIFY]>,
    /// "While it waits, .. a service request is kept". It ends when the packet is polled, and is taken back by a status byte
    /// with bit 6 off: "if bit 6 is still on" it is told.
    pub kept: bool,
    pub message: Message,
    pub reply: Option<Reply>,
    pub out_transfer: Option<OutTransfer>,
    pub in_transfer: Option<InTransfer>,
    /// The empty packet that an abort-IN or a clear owes.
    pub owed: bool,
    pub split: Split,
    /// "The most recent tag is that of the last header accepted (OUT) or the last REQUEST accepted (IN)"
    pub out_recent: u8,
    pub in_recent: u8,
    pub fault: Option<Fault>,
}

impl Unit {
    /// "Power-on takes a packet size P, 64 or 512; any other is answered 3, with an unconfigured unit of size 64."
    pub fn power_on(size: usize) -> (Unit, Number) {
        match size {
            64 | 512 => (Unit::fresh(size), Number::Done),
            _ => (Unit::fresh(64), Number::WrongSize),
        }
    }

    /// "unconfigured, with nothing stored, open, halted or in progress, REN off, LOCS, status byte 0", tags 0
    fn fresh(packet_size: usize) -> Unit {
        Unit {
            packet_size,
            configured: false,
            ren: false,
            remote: Remote::Locs,
            status: 0,
            out_halted: false,
            in_halted: false,
            interrupt_halted: false,
            waiting: None,
            kept: false,
            message: Message::None,
            reply: None,
            out_transfer: None,
            in_transfer: None,
            owed: false,
            split: Split::None,
            out_recent: 0,
            in_recent: 0,
            fault: None,
        }
    }

    /// SET_CONFIGURATION: "all but P as at power-on, 1 configured, 0 not". So what waits or is kept for 0x83 goes, and
    /// its halt.
    fn configure(&mut self, configured: bool) {
        *self = Unit { configured, fault: self.fault, ..Unit::fresh(self.packet_size) };
    }

    /// Bytes of the message held, finished or not.
    pub fn held(&self) -> usize {
        match &self.message {
            Message::None => 0,
            Message::Unfinished(bytes) | Message::Ready(bytes) => bytes.len(),
        }
    }

    pub fn message_ready(&self) -> bool {
        matches!(self.message, Message::Ready(_))
    }

    pub fn message_unfinished(&self) -> bool {
        matches!(self.message, Message::Unfinished(_))
    }

    /// "A halt of Bulk-OUT, from a fault or from the host, drops the open OUT transfer and the unfinished message,
    /// but not a ready one."
    fn halt_bulk_out(&mut self) {
        self.out_halted = true;
        self.drop_unfinished();
    }

    fn drop_unfinished(&mut self) {
        self.out_transfer = None;
        if self.message_unfinished() && self.fault != Some(Fault::HalfKeptAfterHalt) {
            self.message = Message::None;
        }
    }
}
