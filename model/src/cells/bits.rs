//! Numbers of two and four bytes, bit by bit.

use super::SETUP_ROWS;
use crate::unit::{HEADER, STORE};

/// The lowest bit of a TransferSize that no message has room for: 2,048.
pub const FIRST_TOO_LONG: usize = 11;

/// The bits of wValue, wIndex and wLength.
pub const SETUP_BITS: usize = 48;

/// The one bit of a TransferSize that is too much, from `FIRST_TOO_LONG` on: without it the packet is a whole message.
pub fn bit_too_long(packet: &[u8]) -> Option<usize> {
    let size = u32::from_le_bytes([packet[4], packet[5], packet[6], packet[7]]);
    let above = size >> FIRST_TOO_LONG;
    let low = size as usize % (1 << FIRST_TOO_LONG);
    let whole = (1..=STORE).contains(&low) && packet.len() == HEADER + low.div_ceil(4) * 4;
    (above.is_power_of_two() && whole).then(|| above.trailing_zeros() as usize)
}

/// The bits of wValue, wIndex and wLength, from the lowest of wValue on, each of which alone keeps a setup packet from
/// matching a row.
pub fn bits_of_no_row(packet: &[u8]) -> Vec<usize> {
    let is_row = |packet: &[u8]| SETUP_ROWS.iter().any(|row| row.request == packet[1] && row.fits(packet) == [true; 4]);
    let mends = |bit: &usize| {
        let mut other = packet.to_vec();
        turn_setup_bit(&mut other, *bit);
        is_row(&other)
    };
    (0..SETUP_BITS).filter(mends).collect()
}

/// One of these bits the other way.
pub fn turn_setup_bit(packet: &mut [u8], bit: usize) {
    packet[2 + bit / 8] ^= 1 << (bit % 8);
}
