//! Cells by name: both sides of a line, what interrupts a transfer, and how lines are written.

/// Cells on each side of a line, for each packet size.
#[rustfmt::skip]
pub const BOUNDARIES: &[&str] = &[
    // Bulk-OUT
    "message of TransferSize 0 is 10", "REQUEST of TransferSize 0 is 10",
    "size P - 13 in one packet", "size P - 12 in one full packet", "size P - 11 takes one more",
    "transfer ends on a later full packet",
    "TransferSize 1,024 begins", "TransferSize 1,025 is 12",
    "1,020 held and 4 more", "1,020 held and 5 more is 12", "1,024 held unfinished and 1 more is 12",
    "TransferSize with a low half that would do is 12", "TransferSize 2^32 - 1 is 12",
    "TransferSize 2^32 - 15 or more is 12", "held + TransferSize passes 2^32: 12",
    "first packet short by 4", "first packet long by 4", "first packet P long where less is due",
    "first packet of P - 4 where more is due",
    "continuing packet short by 4", "continuing packet long by 4", "continuing packet P long where less is due",
    "continuing packet of P - 4 where more is due",
    "empty packet, idle", "empty packet between transfers", "empty packet inside a transfer is 11",
    "empty packet, message ready is 5", "empty packet, halted is 4", "empty packet, unconfigured is 2",
    "REQUEST of 16 bytes is 11", "REQUEST of P bytes is 11", "TRIGGER of 16 bytes is 11", "TRIGGER of P bytes is 11",
    "OUT packet of P", "OUT packet of P + 1 is 3", "OUT packet of P + 4 is 3",
    "bTag 0 with its inverse is 8", "bTagInverse off in one bit is 8", "the same bTag twice running",
    "TermChar off and its byte not 0", "message with IN transfer open", "TRIGGER with IN transfer open",
    "REQUEST with IN transfer open is 13", "REQUEST with packet owed is 13", "REQUEST with message unfinished is 13",
    "TRIGGER with message unfinished is 13", "REQUEST between poll and CHECK of an abort-IN",
    "rubbish with message ready is 5", "REQUEST with message ready is 5", "TRIGGER with message ready is 5",
    "REQUEST with Bulk-IN halted",
    // Alignment bytes of packets that are accepted, and complete their transfer
    "first packet, no alignment byte", "first packet, 1 alignment byte, 0", "first packet, 2 alignment bytes, 0",
    "first packet, 3 alignment bytes, 0",
    "first packet, 1st alignment byte of 1 not 0", "first packet, 1st alignment byte of 2 not 0",
    "first packet, 2nd alignment byte of 2 not 0", "first packet, 1st alignment byte of 3 not 0",
    "first packet, 2nd alignment byte of 3 not 0", "first packet, 3rd alignment byte of 3 not 0",
    "first packet, all alignment bytes of 2 not 0", "first packet, all alignment bytes of 3 not 0",
    "continuing packet, no alignment byte", "continuing packet, 1 alignment byte, 0",
    "continuing packet, 2 alignment bytes, 0", "continuing packet, 3 alignment bytes, 0",
    "continuing packet, 1st alignment byte of 1 not 0", "continuing packet, 1st alignment byte of 2 not 0",
    "continuing packet, 2nd alignment byte of 2 not 0", "continuing packet, 1st alignment byte of 3 not 0",
    "continuing packet, 2nd alignment byte of 3 not 0", "continuing packet, 3rd alignment byte of 3 not 0",
    "continuing packet, all alignment bytes of 2 not 0", "continuing packet, all alignment bytes of 3 not 0",
    // Old bytes, those that are not 0: in packets that are refused all the same, and what they might reach
    "first packet, old bytes, is 2", "first packet, old bytes, is 3", "first packet, old bytes, is 4",
    "first packet, old bytes, is 5", "first packet, old bytes, is 6", "first packet, old bytes, is 8",
    "first packet, old bytes, is 10", "first packet, old bytes, is 12", "first packet, old bytes, is 11",
    "continuing packet, old bytes, is 3", "continuing packet, old bytes, is 6", "continuing packet, old bytes, is 11",
    "first packet, old bytes, one too few is 6", "first packet, old bytes, one too many is 6",
    "continuing packet, old bytes, one too few is 6", "continuing packet, old bytes, one too many is 6",
    "first packet, no alignment byte due, 4 not 0 are 11", "continuing packet, no alignment byte due, 4 not 0 are 11",
    "first packet of P, old bytes", "continuing packet of P, old bytes",
    "state shows the tag of a header with old bytes", "INITIATE_ABORT_BULK_OUT tells the tag of a header with old bytes",
    "INITIATE_ABORT_BULK_OUT after a transfer with old bytes is 80",
    "CHECK_ABORT_BULK_OUT, old bytes before in the message", "CHECK_ABORT_BULK_OUT, old bytes in the message before",
    "take, old bytes behind the message", "take, old bytes within the message",
    "take of 1,024 bytes, old bytes behind the message", "take of 1,024 bytes, old bytes within the message",
    // Bulk-IN
    "IN buffer 0 is 3", "IN buffer P - 1 is 3", "IN buffer P", "IN buffer P + 1", "IN buffer 2,048",
    "12 + N = k P - 1", "12 + N = k P", "12 + N = k P + 1",
    "closing empty packet with D0", "closing empty packet without D0", "reply gone after D0", "reply stays without D0",
    "asked 1 of more", "asked one less than is left", "asked what is left", "asked one more than is left",
    "asked 2^31 - 1", "asked 2^32 - 1", "asked much, with a low half less than is left",
    "attributes 00", "attributes 01", "attributes 02", "attributes 03",
    "TermChar at the asked length", "TermChar just past the asked length", "TermChar not in what is left",
    "TermChar only in what was sent before", "TermChar the first byte left", "TermChar off but in the data",
    "TermChar past the first packet",
    "poll waits: no transfer, no reply", "poll waits: no transfer, reply stored", "poll waits: transfer open, no reply",
    "owed packet polled, no reply", "owed packet polled, new reply stays", "owed packet, IN buffer P - 1 is 3",
    "owed packet, Bulk-IN halted is 4",
    // Interrupt-IN
    "in3 buffer 0 is 3", "in3 buffer 1 is 3", "in3 buffer 2", "in3 buffer 3", "in3 buffer 64", "in3 buffer 2,048",
    "in3 brings a request and queues the kept one", "in3 brings a read and queues the kept request",
    "in3 right after the poll that queued a kept request", "status right after the poll that queued a kept request",
    "READ_STATUS_BYTE right after the poll that queued a kept request is 20",
    "INITIATE_CLEAR right after the poll that queued a kept request",
    "bit 6 on again before the poll", "a kept request with another byte than before",
    "bit 6 off with the packet of a request waiting", "bit 6 off with the packet of a read waiting",
    "bit 6 off right after a read was queued", "READ_STATUS_BYTE with a request taken back is 20",
    "in3 brings a packet with both bulk endpoints halted", "in is 0 with 0x83 halted", "out is 0 with 0x83 halted",
    "take is 0 with a packet waiting", "offer is 0 with a packet waiting",
    "INITIATE_CLEAR with a packet and a kept request is 01", "INITIATE_CLEAR with 0x83 halted is 01",
    "CHECK_CLEAR_STATUS with a packet and a kept request is 01", "CLEAR_FEATURE 0x83 with all three halted",
    "INITIATE_ABORT at 0x83 matches no row", "CHECK_ABORT at 0x83 matches no row",
    "feature or status row at 0x03 matches no row", "feature or status row at 0x183 matches no row",
    "feature or status row at 0x84 matches no row",
    // The thermostat's calls
    "take buffer 0 is 3", "take buffer one short is 3", "take buffer exact", "take buffer one more", "take buffer 2,048",
    "take with nothing there, buffer 0, is 16", "take of an unfinished message is 16", "take with Bulk-OUT halted",
    "offer of 0 bytes is 3", "offer of 1 byte", "offer of 1,024 bytes", "offer of 1,025 bytes is 3",
    "offer over a stored reply is 16", "offer before the closing packet is 16", "offer in a clear is 16",
    "offer of 1,025 bytes over a stored reply is 3", "offer of 0 bytes in a clear is 3",
    "offer while an abort's packet is owed",
    // Setup
    "setup packet of 0 bytes is 3", "setup packet of 7 bytes is 3", "setup packet of 9 bytes is 3",
    "control buffer 0 is 3", "control buffer 23 is 3", "control buffer 23 and no row is 3", "control buffer 24",
    "control buffer 25", "abort tag 0 matches no row", "abort tag 1", "abort tag 255", "abort tag 256 matches no row",
    "READ_STATUS_BYTE tag 1 matches no row", "READ_STATUS_BYTE tag 2", "READ_STATUS_BYTE tag 127",
    "READ_STATUS_BYTE tag 128 matches no row", "READ_STATUS_BYTE with bit 6 held is 20",
    "INITIATE_ABORT_BULK_OUT in a later transfer", "INITIATE_ABORT_BULK_IN with Bulk-IN halted is 01",
    "INITIATE_ABORT_BULK_IN of a wrong tag + 1 is 81", "INITIATE_CLEAR in abort-OUT", "INITIATE_CLEAR in abort-IN, owed",
    "INITIATE_CLEAR in abort-IN, polled, new transfer open", "INITIATE_CLEAR with Bulk-IN halted and a transfer open",
    "CHECK_CLEAR_STATUS with packet owed and Bulk-IN halted is 02",
    "CLEAR_FEATURE 0x82 with packet owed and a new reply",
    "reset, unconfigured", "suspend, unconfigured",
];

/// What comes between the packets of a transfer. INITIATE_CLEAR is here for an OUT and for an IN transfer.
pub const INTERRUPTIONS: [(Interruption, &str); 6] = [
    (Interruption::ClearOut, "INITIATE_CLEAR after so many OUT packets"),
    (Interruption::SetFeatureOut, "SET_FEATURE 0x01 after so many packets"),
    (Interruption::ClearFeatureOut, "CLEAR_FEATURE 0x01 after so many packets"),
    (Interruption::ClearIn, "INITIATE_CLEAR after so many IN packets"),
    (Interruption::SetFeatureIn, "SET_FEATURE 0x82 after so many packets"),
    (Interruption::ClearFeatureIn, "CLEAR_FEATURE 0x82 after so many packets"),
];

#[derive(Clone, Copy, Debug, PartialEq, Eq)]
pub enum Interruption {
    ClearOut,
    SetFeatureOut,
    ClearFeatureOut,
    ClearIn,
    SetFeatureIn,
    ClearFeatureIn,
}

pub fn interrupts_out(interruption: Interruption) -> bool {
    matches!(interruption, Interruption::ClearOut | Interruption::SetFeatureOut | Interruption::ClearFeatureOut)
}

/// Cells that depend on the unit's line protocol alone.
pub const LINES: &[&str] = &[
    "cannot be read",
    "over 4,096 bytes",
    "of 4,096 bytes",
    "blank or comment",
    "comment after a call",
    "CR before the newline",
    "parted by a tab",
    "upper-case hex",
];
