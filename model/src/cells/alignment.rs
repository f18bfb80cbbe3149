//! The alignment bytes of a packet on Bulk-OUT: "Alignment bytes may be anything" (02, 2). Those that are not 0 are
//! called old bytes here, as another maker's bench "leaves old bytes in the padding".

use crate::unit::{Unit, HEADER};
use std::ops::Range;

/// Where the alignment bytes of a packet belong: behind the data of its transfer, "up to a multiple of 4". The packet may
/// end before them, or in them. None for one that brings no data: only a message has them.
pub fn alignment_place(unit: &Unit, packet: &[u8]) -> Option<Range<u64>> {
    let data_end = match (&unit.out_transfer, packet) {
        (Some(transfer), _) => (transfer.size - transfer.got) as u64,
        (None, [1, _, _, _, s0, s1, s2, s3, _, _, _, _, ..]) => {
            HEADER as u64 + u64::from(u32::from_le_bytes([*s0, *s1, *s2, *s3]))
        }
        _ => return None,
    };
    Some(data_end..data_end.div_ceil(4) * 4)
}

/// The alignment bytes that a packet has, also where it is refused.
pub fn alignment_bytes<'packet>(unit: &Unit, packet: &'packet [u8]) -> &'packet [u8] {
    let Some(place) = alignment_place(unit, packet) else { return &[] };
    let within = |at: u64| at.min(packet.len() as u64) as usize;
    &packet[within(place.start)..within(place.end)]
}

/// Whether an alignment byte that a packet has is not 0.
pub fn has_old_bytes(unit: &Unit, packet: &[u8]) -> bool {
    alignment_bytes(unit, packet).iter().any(|&byte| byte != 0)
}

/// "0 to 3 alignment bytes"
pub const ALIGNMENT_PLACES: [&str; 3] = ["1st", "2nd", "3rd"];

#[cfg(test)]
mod tests {
    use super::*;
    use crate::unit::OutTransfer;

    fn message(size: u32, behind: &[u8]) -> Vec<u8> {
        let mut packet = vec![1, 1, 254, 0];
        packet.extend_from_slice(&size.to_le_bytes());
        packet.extend_from_slice(&[1, 0, 0, 0]);
        packet.extend_from_slice(behind);
        packet
    }

    #[test]
    fn alignment_bytes_stand_behind_the_data_up_to_a_multiple_of_4() {
        let (idle, _) = Unit::power_on(64);
        for (packet, bytes) in [
            (message(1, &[7, 1, 2, 3]), &[1, 2, 3][..]),
            (message(2, &[7, 7, 1, 2]), &[1, 2]),
            (message(3, &[7, 7, 7, 0]), &[0]),
            (message(4, &[7, 7, 7, 7]), &[]),
            // Bytes too many are none, nor is what a short packet has not.
            (message(4, &[7, 7, 7, 7, 1, 2, 3, 4]), &[]),
            (message(1, &[7, 1, 2, 3, 4, 5, 6, 7]), &[1, 2, 3]),
            (message(1, &[7, 1]), &[1]),
            (message(5, &[7, 7, 7, 7]), &[]),
            (message(0, &[7, 7, 7, 7]), &[]),
            (message(u32::MAX, &[7; 52]), &[]),
            (message(1, &[])[..11].to_vec(), &[]),
            ([&[2], &message(1, &[7, 1, 2, 3])[1..]].concat(), &[]),
        ] {
            assert_eq!(alignment_bytes(&idle, &packet), bytes, "{packet:02x?}");
        }
        let transfer = OutTransfer { tag: 1, size: 53, got: 52, end: true };
        let open = Unit { out_transfer: Some(transfer), ..idle };
        assert_eq!(alignment_bytes(&open, &[7, 1, 2, 3]), [1, 2, 3]);
        assert_eq!(alignment_bytes(&open, &message(1, &[])), [1, 254, 0]);
        assert_eq!(alignment_bytes(&open, &[]), []);
        assert!(has_old_bytes(&open, &[7, 0, 2, 0]) && !has_old_bytes(&open, &[7, 0, 0, 0, 1, 1, 1, 1]));
    }
}
