//! Where the split, Bulk-OUT and Bulk-IN stand.

use super::{Kind, KINDS};
use crate::unit::{Message, Split, Unit};

pub const SPLIT_COLUMNS: [&str; 6] = ["none", "abort-OUT", "abort-IN owed", "abort-IN", "clear owed", "clear"];

pub fn split_column(unit: &Unit) -> usize {
    match (unit.split, unit.owed) {
        (Split::None, _) => 0,
        (Split::AbortOut { .. }, _) => 1,
        (Split::AbortIn { .. }, true) => 2,
        (Split::AbortIn { .. }, false) => 3,
        (Split::Clear, true) => 4,
        (Split::Clear, false) => 5,
    }
}

pub fn split_allowed(row: usize, column: usize) -> bool {
    match (KINDS[row].0, SPLIT_COLUMNS[column]) {
        // Bulk-OUT is halted during these, so no OUT transfer is open.
        (Kind::OutContinuing, "abort-OUT" | "clear owed" | "clear") => false,
        // A clear has set the most recent tags to 0, and 0 matches no row.
        (Kind::AbortOut, "clear owed" | "clear") | (Kind::AbortIn, "clear") => false,
        _ => true,
    }
}

/// Where Bulk-OUT stands: `open` in the first transfer of a message, `open2` in a later one, `between` two of them.
pub const OUT_COLUMNS: [&str; 8] = ["unconf", "idle", "open", "between", "open2", "ready", "halted", "halted+ready"];

pub fn out_column(unit: &Unit) -> usize {
    match (&unit.out_transfer, &unit.message) {
        _ if !unit.configured => 0,
        (_, Message::Ready(_)) if unit.out_halted => 7,
        (_, Message::Ready(_)) => 5,
        _ if unit.out_halted => 6,
        (Some(transfer), _) if transfer.got < unit.held() => 4,
        (Some(_), _) => 2,
        (None, Message::Unfinished(_)) => 3,
        (None, Message::None) => 1,
    }
}

pub fn out_allowed(row: usize, column: usize) -> bool {
    match (KINDS[row].0, OUT_COLUMNS[column]) {
        // Inside a transfer every packet continues it.
        (Kind::OutContinuing, point) => matches!(point, "open" | "open2"),
        (Kind::OutMessage | Kind::OutRequest | Kind::OutTrigger | Kind::OutUnknown, "open" | "open2") => false,
        // The most recent tag of an unconfigured unit is 0, and 0 matches no row.
        (Kind::AbortOut | Kind::AbortIn, "unconf") => false,
        _ => true,
    }
}

/// Where Bulk-IN stands: `stored` a reply and no transfer, `rest` of a reply and no transfer, `asked` a transfer and no
/// reply, `primed` both and no packet sent, `closing` with only the empty packet left, `owed` by an abort or a clear.
pub const IN_COLUMNS: [&str; 11] =
    ["idle", "stored", "rest", "asked", "primed", "sending", "closing", "owed", "owed+reply", "halted", "halted+open"];

/// None for an unconfigured unit, which has only one such point.
pub fn in_column(unit: &Unit) -> Option<usize> {
    let reply = unit.reply.as_ref();
    Some(match &unit.in_transfer {
        _ if !unit.configured => return None,
        Some(_) if unit.in_halted => 10,
        None if unit.in_halted => 9,
        Some(_) if unit.owed => 7 + usize::from(reply.is_some()),
        Some(transfer) => match transfer.sending {
            None => 3 + usize::from(reply.is_some()),
            Some(sending) if sending.sent < sending.n => 5,
            Some(_) => 6,
        },
        None => match reply {
            None => 0,
            Some(reply) if reply.sent == 0 => 1,
            Some(_) => 2,
        },
    })
}
