//! Calls for the traffic: good ones as the unit stands, near misses and damaged ones.

mod kinds;
mod packets;
mod setup;

pub const REFUSED_SIZES: [usize; 14] = [0, 1, 8, 16, 32, 63, 65, 128, 256, 511, 513, 1024, 4096, 65_535];

/// TransferSizes that no message can have: near 2^32, where sums wrap, and with low halves that would do.
#[rustfmt::skip]
pub const HUGE: [u32; 14] = [
    u32::MAX, u32::MAX, u32::MAX - 1, u32::MAX - 2, u32::MAX - 3, u32::MAX - 11, u32::MAX - 12, u32::MAX - 14,
    0x8000_0000, 0x8000_0004, 0xFFFF_0001, 0x0100_0004, 0x0001_0000, 0x0001_0004,
];
