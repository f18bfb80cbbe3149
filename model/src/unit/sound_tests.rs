//! Units that no calls leave, at least one for each clause of soundness, beside the nearest that calls do leave.

use super::sound::CLAUSES;
use super::{InTransfer, Message, OutTransfer, Remote, Reply, Sending, Split, Unit};

fn configured() -> Unit {
    Unit { configured: true, ..Unit::power_on(64).0 }
}

fn unfinished(bytes: usize) -> Message {
    Message::Unfinished(vec![b'a'; bytes])
}

/// In the second packet of an OUT transfer of 100 bytes.
fn open_out() -> Unit {
    let transfer = OutTransfer { tag: 5, size: 100, got: 52, end: true };
    Unit { out_transfer: Some(transfer), out_recent: 5, message: unfinished(52), ..configured() }
}

fn with_out(change: impl FnOnce(&mut OutTransfer)) -> Unit {
    let mut unit = open_out();
    change(unit.out_transfer.as_mut().unwrap());
    unit
}

/// A REQUEST that waits for a reply.
fn asked() -> Unit {
    let transfer = InTransfer { tag: 7, asked: 1000, term_char: None, sending: None };
    Unit { in_transfer: Some(transfer), out_recent: 7, in_recent: 7, ..configured() }
}

/// After the first packet of a reply of 100 bytes.
fn sending(sending: Sending, reply: Option<Reply>) -> Unit {
    let transfer = InTransfer { tag: 7, asked: 1000, term_char: None, sending: Some(sending) };
    Unit { in_transfer: Some(transfer), reply, ..asked() }
}

fn reply(bytes: usize, sent: usize) -> Option<Reply> {
    Some(Reply { bytes: vec![b'r'; bytes], sent })
}

fn clear() -> Unit {
    Unit { split: Split::Clear, out_halted: true, ..configured() }
}

/// The clause that is broken, by name, and a unit that breaks it and no other.
fn unsound_units() -> Vec<(&'static str, Unit)> {
    let waiting = |packet, kept, status| Unit { waiting: packet, kept, status, ..configured() };
    let owed = |split| Unit { owed: true, split, ..asked() };
    let request = Some([0x81, 0x40]);
    let some = Sending { n: 100, sent: 52, all_that_is_left: true };
    vec![
        ("packet-size", Unit { packet_size: 128, ..configured() }),
        ("unconfigured", Unit { configured: false, status: 1, ..configured() }),
        ("unconfigured", Unit { configured: false, interrupt_halted: true, ..configured() }),
        ("unconfigured", Unit { configured: false, message: Message::Ready(vec![1]), ..configured() }),
        ("ren-off", Unit { remote: Remote::Rems, ..configured() }),
        ("ren-off", Unit { remote: Remote::Rwls, ..configured() }),
        ("message-size", Unit { message: unfinished(0), ..configured() }),
        ("message-size", Unit { message: Message::Ready(Vec::new()), ..configured() }),
        ("message-size", Unit { message: Message::Ready(vec![1; 1025]), ..configured() }),
        ("reply-size", Unit { reply: reply(1025, 0), ..configured() }),
        ("reply-size", Unit { ..sending(Sending { n: 116, sent: 116, ..some }, reply(115, 116)) }),
        ("out-halt", Unit { out_halted: true, message: unfinished(1), ..configured() }),
        ("out-halt", Unit { out_halted: true, ..open_out() }),
        ("out-message", Unit { message: Message::Ready(vec![1; 52]), ..open_out() }),
        ("out-tag", Unit { out_recent: 6, ..open_out() }),
        ("out-tag", Unit { out_recent: 0, ..with_out(|transfer| transfer.tag = 0) }),
        ("out-due", with_out(|transfer| transfer.got = 0)),
        ("out-due", with_out(|transfer| transfer.size = 52)),
        ("out-held", Unit { message: unfinished(51), ..open_out() }),
        ("out-room", Unit { message: unfinished(977), ..open_out() }),
        ("owed-open", Unit { in_transfer: None, ..owed(Split::AbortIn { count: 0 }) }),
        ("owed-split", owed(Split::None)),
        ("owed-split", Unit { out_halted: true, ..owed(Split::AbortOut { count: 1 }) }),
        (
            "in-asked",
            Unit {
                in_recent: 0,
                in_transfer: asked().in_transfer.map(|open| InTransfer { tag: 0, ..open }),
                ..asked()
            },
        ),
        ("in-asked", Unit { in_transfer: asked().in_transfer.map(|open| InTransfer { asked: 0, ..open }), ..asked() }),
        ("in-tag", Unit { in_recent: 8, ..asked() }),
        ("in-unsent", Unit { reply: reply(1, 1), ..configured() }),
        ("in-unsent", Unit { reply: reply(1, 1), ..asked() }),
        ("in-unsent", Unit { reply: reply(1, 1), ..owed(Split::AbortIn { count: 0 }) }),
        ("in-packets", sending(Sending { sent: 51, ..some }, reply(100, 51))),
        ("in-due", sending(some, None)),
        ("in-due", sending(Sending { all_that_is_left: false, ..some }, reply(99, 52))),
        ("in-due", sending(Sending { n: 51, ..some }, reply(52, 52))),
        ("in-d0", sending(some, reply(101, 52))),
        ("in-d0", sending(Sending { all_that_is_left: false, ..some }, reply(100, 52))),
        ("waiting-packet", waiting(Some([0x81, 0xBF]), false, 0)),
        ("waiting-packet", waiting(Some([0x82, 0x40]), false, 0)),
        ("waiting-packet", waiting(Some([0xFF, 0x40]), true, 0x40)),
        ("waiting-packet", waiting(Some([0x80, 0x00]), false, 0)),
        ("waiting-packet", waiting(Some([0x7F, 0x40]), false, 0)),
        ("waiting-packet", waiting(Some([0x00, 0x00]), false, 0)),
        ("kept-waits", waiting(None, true, 0x40)),
        ("kept-bit-6", waiting(None, false, 0x40)),
        ("kept-bit-6", waiting(request, false, 0x40)),
        ("kept-bit-6", waiting(request, true, 0x00)),
        ("kept-bit-6", waiting(Some([0x82, 0x00]), true, 0xBF)),
        ("abort-out-halt", Unit { split: Split::AbortOut { count: 52 }, ..configured() }),
        ("abort-out-count", Unit { split: Split::AbortOut { count: 0 }, out_halted: true, ..configured() }),
        ("abort-out-count", Unit { split: Split::AbortOut { count: 1024 }, out_halted: true, ..configured() }),
        ("abort-in-count", Unit { split: Split::AbortIn { count: 1025 }, ..configured() }),
        ("clear-halt", Unit { out_halted: false, ..clear() }),
        ("clear-stores", Unit { message: Message::Ready(vec![1]), ..clear() }),
        ("clear-stores", Unit { reply: reply(1, 0), ..clear() }),
        ("clear-tags", Unit { out_recent: 1, ..clear() }),
        ("clear-tags", Unit { in_recent: 1, ..clear() }),
        ("clear-owed", Unit { in_transfer: asked().in_transfer, ..clear() }),
    ]
}

/// Each clause catches a unit that no other catches, in this build, whether its assertions are on or off.
#[test]
fn each_clause_alone_catches_a_unit() {
    let units = unsound_units();
    for (name, unit) in &units {
        assert_eq!(unit.unsound().map(|clause| clause.name), Some(*name), "{unit:?}");
        let broken: Vec<&str> = CLAUSES.iter().filter(|clause| !clause.holds(unit)).map(|clause| clause.name).collect();
        assert_eq!(broken, [*name], "{unit:?}");
    }
    for clause in &CLAUSES {
        assert!(units.iter().any(|(name, _)| *name == clause.name), "{} has no unit", clause.name);
    }
}

#[test]
fn what_calls_leave_is_sound() {
    let some = Sending { n: 100, sent: 52, all_that_is_left: true };
    let waiting = |packet, kept, status| Unit { waiting: packet, kept, status, ..configured() };
    for unit in [
        Unit::power_on(64).0,
        Unit::power_on(512).0,
        configured(),
        Unit { ren: true, remote: Remote::Rwls, ..configured() },
        Unit { message: unfinished(1024), ..configured() },
        Unit { message: Message::Ready(vec![1; 1024]), out_halted: true, ..configured() },
        Unit { reply: reply(1024, 1023), ..configured() },
        open_out(),
        Unit { message: unfinished(976), ..open_out() },
        asked(),
        Unit { owed: true, split: Split::AbortIn { count: 0 }, ..asked() },
        Unit { owed: true, in_transfer: asked().in_transfer, ..clear() },
        clear(),
        sending(some, reply(100, 52)),
        sending(Sending { all_that_is_left: false, ..some }, reply(101, 52)),
        sending(Sending { n: 52, ..some }, reply(52, 52)),
        Unit { split: Split::AbortOut { count: 1023 }, out_halted: true, ..configured() },
        Unit { split: Split::AbortIn { count: 1024 }, ..configured() },
        waiting(None, false, 0xBF),
        waiting(Some([0x81, 0x40]), false, 0x00),
        waiting(Some([0x81, 0x40]), true, 0x40),
        waiting(Some([0x82, 0xBF]), false, 0x00),
        waiting(Some([0xFF, 0x00]), true, 0xFF),
    ] {
        assert_eq!(unit.unsound().map(|clause| clause.name), None, "{unit:?}");
    }
}
