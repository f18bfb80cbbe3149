//! Deliberate faults, to try whether a comparison finds them.

use super::Unit;

/// A deliberate fault, for trying whether a comparison finds it.
#[derive(Clone, Copy, Debug, PartialEq, Eq)]
pub enum Fault {
    /// The message may have 1,025 bytes.
    LengthOffByOne,
    /// INITIATE_CLEAR leaves the most recent tags.
    TagKeptOverClear,
    /// A halt of Bulk-OUT drops the open transfer, but not the unfinished message, nor does the end of the halt.
    HalfKeptAfterHalt,
    /// A service request that is made while a packet waits is not kept.
    KeptRequestLost,
    /// A status byte with bit 6 off takes back the packet of the service request before it.
    PacketWithdrawn,
    /// An alignment byte that is not 0 is taken for one too many: 11.
    AlignmentRefused,
    /// Alignment bytes are handed over with the message, behind the data, where one of them is not 0.
    AlignmentHandedOver,
    /// A header with an alignment byte that is not 0 moves neither the tag nor the remote/local state.
    TagKeptOverAlignment,
    /// The last byte of a TransferSize is not read.
    TopByteLost,
    /// The high byte of wIndex is not read.
    IndexHighByteLost,
}

impl Fault {
    pub const ALL: [Fault; 10] = [
        Fault::LengthOffByOne,
        Fault::TagKeptOverClear,
        Fault::HalfKeptAfterHalt,
        Fault::KeptRequestLost,
        Fault::PacketWithdrawn,
        Fault::AlignmentRefused,
        Fault::AlignmentHandedOver,
        Fault::TagKeptOverAlignment,
        Fault::TopByteLost,
        Fault::IndexHighByteLost,
    ];

    pub fn name(self) -> &'static str {
        match self {
            Fault::LengthOffByOne => "length-off-by-one",
            Fault::TagKeptOverClear => "tag-kept-over-clear",
            Fault::HalfKeptAfterHalt => "half-kept-after-halt",
            Fault::KeptRequestLost => "kept-request-lost",
            Fault::PacketWithdrawn => "packet-withdrawn",
            Fault::AlignmentRefused => "alignment-refused",
            Fault::AlignmentHandedOver => "alignment-handed-over",
            Fault::TagKeptOverAlignment => "tag-kept-over-alignment",
            Fault::TopByteLost => "top-byte-lost",
            Fault::IndexHighByteLost => "index-high-byte-lost",
        }
    }

    pub fn named(name: &str) -> Option<Fault> {
        Fault::ALL.into_iter().find(|fault| fault.name() == name)
    }
}

impl Unit {
    /// A packet as the unit reads it: with the fault, the byte at `at` is 0 to it.
    pub(super) fn as_read(&self, packet: &[u8], at: usize, fault: Fault) -> Vec<u8> {
        let mut read = packet.to_vec();
        if self.fault == Some(fault) && at < read.len() {
            read[at] = 0;
        }
        read
    }
}
