//! The header of a transfer on Bulk-OUT: 6 to 10.

use super::{Number, HEADER};

/// A header that has passed 6 to 10.
pub(super) enum Header {
    Message { tag: u8, size: u32, end: bool },
    Request { tag: u8, asked: u32, term_char: Option<u8> },
    Trigger { tag: u8 },
}

impl Header {
    /// "a header then goes 6, 7, 8, 9, 10": what can be said of it without the unit
    pub(super) fn read(packet: &[u8]) -> Result<Header, Number> {
        if packet.len() % 4 != 0 {
            return Err(Number::NotInFours);
        }
        if packet.len() < HEADER {
            return Err(Number::ShortHeader);
        }
        let tag = packet[1];
        if tag == 0 || packet[2] != 255 - tag {
            return Err(Number::BadTag);
        }
        let size = u32::from_le_bytes([packet[4], packet[5], packet[6], packet[7]]);
        let attributes = packet[8];
        let zero = |bytes: &[u8]| bytes.iter().all(|&byte| byte == 0);
        let (header, unreserved) = match packet[0] {
            // "TransferSize (4), attributes with only D0 = EOM, three 0"
            1 => (
                Header::Message { tag, size, end: attributes & 1 != 0 },
                attributes & !0x01 == 0 && zero(&packet[9..12]) && size != 0,
            ),
            // "TransferSize (4), attributes with only D1 = TermCharEnabled, TermChar (ignored unless enabled), two 0"
            2 => {
                let term_char = if attributes & 2 != 0 { Some(packet[9]) } else { None };
                (
                    Header::Request { tag, asked: size, term_char },
                    attributes & !0x02 == 0 && zero(&packet[10..12]) && size != 0,
                )
            }
            // "eight 0"
            128 => (Header::Trigger { tag }, zero(&packet[4..12])),
            _ => return Err(Number::UnknownMsgId),
        };
        if packet[3] != 0 || !unreserved {
            return Err(Number::Reserved);
        }
        Ok(header)
    }
}
