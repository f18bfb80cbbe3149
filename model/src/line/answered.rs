//! How a call was answered, as a line: number, what it tells, bytes, and what `state` and `more` show.

use super::call::hex_or_dash;
use crate::unit::{Message, Number, Remote, Split, Tells, Unit};

/// How one call was answered, before it is written down.
#[derive(Clone, Debug, PartialEq, Eq)]
pub struct Answered {
    pub number: Number,
    pub tells: Option<Tells>,
    /// The bytes written, for setup, in, in3 and take answered 0.
    pub bytes: Option<Vec<u8>>,
    pub spilled: bool,
    /// What `state` or `more` shows.
    pub state: Option<String>,
}

impl Answered {
    pub fn line(&self) -> String {
        let mut line = (self.number as u8).to_string();
        match self.tells {
            Some(Tells::Trigger) => line.push_str(" trigger"),
            Some(Tells::Pulse) => line.push_str(" pulse"),
            None => {}
        }
        if let Some(bytes) = &self.bytes {
            line.push(' ');
            line.push_str(&hex_or_dash(bytes));
        }
        if let Some(state) = &self.state {
            line.push(' ');
            line.push_str(state);
        }
        if self.spilled {
            line.push_str(" spilled");
        }
        line
    }
}

fn running(halted: bool) -> &'static str {
    if halted {
        "halted"
    } else {
        "running"
    }
}

pub(super) fn state(unit: &Unit) -> String {
    let remote = match unit.remote {
        Remote::Locs => "LOCS",
        Remote::Rems => "REMS",
        Remote::Lwls => "LWLS",
        Remote::Rwls => "RWLS",
    };
    let message = match &unit.message {
        Message::None => "none".to_string(),
        Message::Unfinished(bytes) => format!("part:{}", bytes.len()),
        Message::Ready(bytes) => format!("ready:{}", bytes.len()),
    };
    let split = match unit.split {
        Split::None => "none",
        Split::AbortOut { .. } => "abort-out",
        Split::AbortIn { .. } => "abort-in",
        Split::Clear => "clear",
    };
    format!(
        "configured={} ren={} remote={remote} status={:02x} out={} in={} message={message} reply={} split={split} \
         owed={} tags={:02x},{:02x}",
        u8::from(unit.configured),
        u8::from(unit.ren),
        unit.status,
        running(unit.out_halted),
        running(unit.in_halted),
        unit.reply.as_ref().map_or(0, |reply| reply.bytes.len().saturating_sub(reply.sent)),
        u8::from(unit.owed),
        unit.out_recent,
        unit.in_recent,
    )
}

pub(super) fn more(unit: &Unit) -> String {
    let waiting = unit.waiting.map_or("none".to_string(), |packet| hex_or_dash(&packet));
    format!("p={} int={waiting} int-endpoint={}", unit.packet_size, running(unit.interrupt_halted))
}
