//! The remote/local states, and what may move them.

use super::Kind;
use crate::line::Answered;
use crate::unit::{Number, Remote, Unit};

pub const REMOTE_ROWS: [&str; 5] = ["LOCS, REN off", "LOCS, REN on", "REMS", "LWLS", "RWLS"];

pub fn remote_row(unit: &Unit) -> usize {
    match unit.remote {
        Remote::Locs => usize::from(unit.ren),
        Remote::Rems => 2,
        Remote::Lwls => 3,
        Remote::Rwls => 4,
    }
}

#[rustfmt::skip]
pub const REMOTE_EVENTS: [&str; 21] = [
    "MSG_OUT", "MSG_OUT, old bytes", "6 to 10", "12", "11", "REQUEST", "TRIGGER", "GO_TO_LOCAL", "panel", "LOCKOUT",
    "REN 1", "REN 0", "suspend", "reset", "CONFIG 0", "CONFIG 1", "CLEAR", "status", "READ_STATUS", "in3", "0x83 halt",
];

pub fn remote_event(kind: Kind, old_bytes: bool, answered: &Answered) -> Option<usize> {
    let done = answered.number == Number::Done;
    let name = match kind {
        Kind::OutMessage if done && old_bytes => "MSG_OUT, old bytes",
        Kind::OutMessage if done => "MSG_OUT",
        // A header that is refused moves no state but the halt, however late it is refused.
        Kind::OutMessage => match answered.number as u8 {
            6..=10 => "6 to 10",
            12 => "12",
            11 => "11",
            _ => return None,
        },
        Kind::OutRequest if done => "REQUEST",
        Kind::OutTrigger if done => "TRIGGER",
        Kind::GoToLocal if done => "GO_TO_LOCAL",
        Kind::Local if done => "panel",
        Kind::LocalLockout if done => "LOCKOUT",
        Kind::RenOn if done => "REN 1",
        Kind::RenOff if done => "REN 0",
        Kind::Suspend => "suspend",
        Kind::Reset => "reset",
        Kind::Unconfigure => "CONFIG 0",
        Kind::Configure => "CONFIG 1",
        Kind::InitiateClear if done => "CLEAR",
        Kind::Status | Kind::ServiceRequest if done => "status",
        Kind::ReadStatusByte if done => "READ_STATUS",
        Kind::In3 if done => "in3",
        Kind::SetFeatureInterrupt | Kind::ClearFeatureInterrupt if done => "0x83 halt",
        _ => return None,
    };
    REMOTE_EVENTS.iter().position(|event| *event == name)
}
