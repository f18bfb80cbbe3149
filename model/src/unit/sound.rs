//! When a unit is sound, clause by clause. "The team writes down when a unit is sound. Power-on is sound, every call keeps
//! it so". These clauses are the model's own: they hold of what its calls leave, and are asked after each of them, in
//! every build.

use super::{InTransfer, Message, OutTransfer, Remote, Sending, Split, Unit, BIT_6, HEADER, SERVICE_REQUEST, STORE};

/// A clause: its name, what it says, and whether it holds of a unit. Each can be asked of any unit, sound or not.
pub struct Clause {
    pub name: &'static str,
    pub says: &'static str,
    test: fn(&Unit) -> bool,
}

impl Clause {
    pub fn holds(&self, unit: &Unit) -> bool {
        (self.test)(unit)
    }
}

#[rustfmt::skip]
pub static CLAUSES: [Clause; 29] = [
    Clause { name: "packet-size", says: "P is 64 or 512", test: packet_size },
    Clause { name: "unconfigured", says: "an unconfigured unit is as at power-on", test: unconfigured },
    Clause { name: "ren-off", says: "REN off is LOCS", test: ren_off },
    Clause { name: "message-size", says: "a message that is held has 1 to 1,024 bytes", test: message_size },
    Clause { name: "reply-size", says: "a reply that is stored has 1 to 1,024 bytes, and no more of it is sent", test: reply_size },
    Clause { name: "out-halt", says: "a halted Bulk-OUT has no open transfer and no unfinished message", test: out_halt },
    Clause { name: "out-message", says: "the message of an open OUT transfer is unfinished", test: out_message },
    Clause { name: "out-tag", says: "an open OUT transfer has the most recent tag, and it is not 0", test: out_tag },
    Clause { name: "out-due", says: "an open OUT transfer has brought data and is due more", test: out_due },
    Clause { name: "out-held", says: "what an open OUT transfer has brought is held", test: out_held },
    Clause { name: "out-room", says: "what an open OUT transfer is due has room behind what is held", test: out_room },
    Clause { name: "owed-open", says: "a packet is owed only in an open IN transfer", test: owed_open },
    Clause { name: "owed-split", says: "a packet is owed only by an abort-IN or a clear", test: owed_split },
    Clause { name: "in-asked", says: "an open IN transfer asks for a byte at least, with a tag that is not 0", test: in_asked },
    Clause { name: "in-tag", says: "an open IN transfer has the most recent tag, but in a clear", test: in_tag },
    Clause { name: "in-unsent", says: "a reply with no byte unsent waits for the empty packet that closes its transfer", test: in_unsent },
    Clause { name: "in-packets", says: "what an open IN transfer has sent is full packets", test: in_packets },
    Clause { name: "in-due", says: "what an open IN transfer still has to send is there", test: in_due },
    Clause { name: "in-d0", says: "an open IN transfer has D0 just when it sends all that is left", test: in_d0 },
    Clause { name: "waiting-packet", says: "the packet that waits is 0x81 and a byte with bit 6 on, or 0x82 to 0xFF and one with bit 6 off", test: waiting_packet },
    Clause { name: "kept-waits", says: "a service request is kept only while a packet waits", test: kept_waits },
    Clause { name: "kept-bit-6", says: "a service request is kept just while bit 6 is on: once queued it is cleared, and set off it takes the request back", test: kept_bit_6 },
    Clause { name: "abort-out-halt", says: "Bulk-OUT is halted during an abort-OUT", test: abort_out_halt },
    Clause { name: "abort-out-count", says: "an abort-OUT counts 1 to 1,023 bytes", test: abort_out_count },
    Clause { name: "abort-in-count", says: "an abort-IN counts 1,024 bytes at most", test: abort_in_count },
    Clause { name: "clear-halt", says: "Bulk-OUT is halted during a clear", test: clear_halt },
    Clause { name: "clear-stores", says: "during a clear no message and no reply is stored", test: clear_stores },
    Clause { name: "clear-tags", says: "during a clear both most recent tags are 0", test: clear_tags },
    Clause { name: "clear-owed", says: "during a clear an IN transfer is open only while its packet is owed", test: clear_owed },
];

impl Unit {
    /// The first clause that does not hold; None of a sound unit.
    pub fn unsound(&self) -> Option<&'static Clause> {
        CLAUSES.iter().find(|clause| !clause.holds(self))
    }
}

// What a clause is about, if it is there.

fn out(unit: &Unit, holds: impl Fn(&OutTransfer) -> bool) -> bool {
    unit.out_transfer.as_ref().is_none_or(holds)
}

fn into(unit: &Unit, holds: impl Fn(&InTransfer) -> bool) -> bool {
    unit.in_transfer.as_ref().is_none_or(holds)
}

/// An open IN transfer that sends, and whose reply was not dropped for the owed packet.
fn sending(unit: &Unit, holds: impl Fn(Sending) -> bool) -> bool {
    let sending = unit.in_transfer.as_ref().and_then(|transfer| transfer.sending);
    unit.owed || sending.is_none_or(holds)
}

/// How many bytes of the reply are unsent.
fn unsent(unit: &Unit) -> Option<usize> {
    unit.reply.as_ref().map(|reply| reply.bytes.len().saturating_sub(reply.sent))
}

// The unit as a whole.

fn packet_size(unit: &Unit) -> bool {
    matches!(unit.packet_size, 64 | 512)
}

fn unconfigured(unit: &Unit) -> bool {
    unit.configured || *unit == Unit { fault: unit.fault, ..Unit::fresh(unit.packet_size) }
}

/// "REN off, suspend, reset and SET_CONFIGURATION give LOCS and REN off", and nothing leaves LOCS with REN off.
fn ren_off(unit: &Unit) -> bool {
    unit.ren || unit.remote == Remote::Locs
}

fn message_size(unit: &Unit) -> bool {
    unit.message == Message::None || (1..=STORE).contains(&unit.held())
}

fn reply_size(unit: &Unit) -> bool {
    unit.reply.as_ref().is_none_or(|reply| (1..=STORE).contains(&reply.bytes.len()) && reply.sent <= reply.bytes.len())
}

// Bulk-OUT.

fn out_halt(unit: &Unit) -> bool {
    !unit.out_halted || (unit.out_transfer.is_none() && !unit.message_unfinished())
}

fn out_message(unit: &Unit) -> bool {
    out(unit, |_| unit.message_unfinished())
}

fn out_tag(unit: &Unit) -> bool {
    out(unit, |transfer| transfer.tag != 0 && transfer.tag == unit.out_recent)
}

fn out_due(unit: &Unit) -> bool {
    out(unit, |transfer| (1..transfer.size).contains(&transfer.got))
}

fn out_held(unit: &Unit) -> bool {
    out(unit, |transfer| transfer.got <= unit.held())
}

fn out_room(unit: &Unit) -> bool {
    out(unit, |transfer| unit.held() + transfer.size.saturating_sub(transfer.got) <= STORE)
}

// Bulk-IN.

fn owed_open(unit: &Unit) -> bool {
    !unit.owed || unit.in_transfer.is_some()
}

fn owed_split(unit: &Unit) -> bool {
    !unit.owed || matches!(unit.split, Split::AbortIn { .. } | Split::Clear)
}

fn in_asked(unit: &Unit) -> bool {
    into(unit, |transfer| transfer.tag != 0 && transfer.asked != 0)
}

fn in_tag(unit: &Unit) -> bool {
    into(unit, |transfer| transfer.tag == unit.in_recent || unit.split == Split::Clear)
}

fn in_unsent(unit: &Unit) -> bool {
    let sends = unit.in_transfer.as_ref().is_some_and(|transfer| transfer.sending.is_some());
    unsent(unit) != Some(0) || (sends && !unit.owed)
}

fn in_packets(unit: &Unit) -> bool {
    sending(unit, |sending| (HEADER + sending.sent) % unit.packet_size == 0)
}

fn in_due(unit: &Unit) -> bool {
    sending(unit, |sending| {
        sending.sent <= sending.n && unsent(unit).is_some_and(|unsent| sending.n - sending.sent <= unsent)
    })
}

fn in_d0(unit: &Unit) -> bool {
    sending(unit, |sending| {
        let due = sending.n.saturating_sub(sending.sent);
        unsent(unit).is_none_or(|unsent| (due == unsent) == sending.all_that_is_left)
    })
}

// Interrupt-IN (02, 1).

/// "a service request, which sends 0x81 and the status byte"; "READ_STATUS_BYTE queues its tag with the top bit set", a tag
/// of 2 to 127, while nothing waits, so that no request is kept.
fn waiting_packet(unit: &Unit) -> bool {
    match unit.waiting {
        None => true,
        Some([SERVICE_REQUEST, status]) => status & BIT_6 != 0,
        Some([0x82..=0xFF, status]) => status & BIT_6 == 0,
        Some(_) => false,
    }
}

/// "While it waits .. a service request is kept"
fn kept_waits(unit: &Unit) -> bool {
    unit.waiting.is_some() || !unit.kept
}

/// "if bit 6 is still on when the packet is polled": with bit 6 off there is nothing to be told, and no request.
fn kept_bit_6(unit: &Unit) -> bool {
    unit.kept == (unit.status & BIT_6 != 0)
}

// Splits.

/// "An OUT abort halts Bulk-OUT", and "during a clear or abort-OUT split .. the halt stays".
fn abort_out_halt(unit: &Unit) -> bool {
    unit.out_halted || !matches!(unit.split, Split::AbortOut { .. })
}

fn abort_out_count(unit: &Unit) -> bool {
    match unit.split {
        Split::AbortOut { count } => (1..STORE as u32).contains(&count),
        _ => true,
    }
}

fn abort_in_count(unit: &Unit) -> bool {
    match unit.split {
        Split::AbortIn { count } => count <= STORE as u32,
        _ => true,
    }
}

/// A clear "drops the ready message and the reply, sets both most recent tags to 0 .., halts Bulk-OUT, and owes the empty
/// packet if an IN transfer is open"; while Bulk-OUT is halted no header comes, and an offer is 16.
fn clear(unit: &Unit, holds: bool) -> bool {
    unit.split != Split::Clear || holds
}

fn clear_halt(unit: &Unit) -> bool {
    clear(unit, unit.out_halted)
}

fn clear_stores(unit: &Unit) -> bool {
    clear(unit, unit.message == Message::None && unit.reply.is_none())
}

fn clear_tags(unit: &Unit) -> bool {
    clear(unit, unit.out_recent == 0 && unit.in_recent == 0)
}

fn clear_owed(unit: &Unit) -> bool {
    clear(unit, unit.owed || unit.in_transfer.is_none())
}
