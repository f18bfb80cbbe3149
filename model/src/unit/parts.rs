//! The parts of a unit: remote/local state, split, message, reply, and the two transfers.

/// The remote/local states, as 001 names them.
#[derive(Clone, Copy, Debug, PartialEq, Eq)]
pub enum Remote {
    Locs,
    Rems,
    Lwls,
    Rwls,
}

/// "one of none, abort-OUT with its count, abort-IN with its count, or clear"
#[derive(Clone, Copy, Debug, PartialEq, Eq)]
pub enum Split {
    None,
    AbortOut { count: u32 },
    AbortIn { count: u32 },
    Clear,
}

/// What has come in: a message is unfinished until a transfer with EOM completes, and ready until it is taken.
#[derive(Clone, Debug, PartialEq, Eq)]
pub enum Message {
    None,
    Unfinished(Vec<u8>),
    Ready(Vec<u8>),
}

/// A reply of the thermostat, and how much of it the host has.
#[derive(Clone, Debug, PartialEq, Eq)]
pub struct Reply {
    pub bytes: Vec<u8>,
    pub sent: usize,
}

impl Reply {
    /// "the reply bytes left"
    pub fn unsent(&self) -> &[u8] {
        &self.bytes[self.sent..]
    }
}

/// "An OUT transfer is open from its header until complete"
#[derive(Clone, Debug, PartialEq, Eq)]
pub struct OutTransfer {
    pub tag: u8,
    pub size: usize,
    pub got: usize,
    /// EOM
    pub end: bool,
}

/// "an IN transfer from its REQUEST until its short packet"
#[derive(Clone, Debug, PartialEq, Eq)]
pub struct InTransfer {
    pub tag: u8,
    pub asked: u32,
    pub term_char: Option<u8>,
    /// None until the first packet fixes N.
    pub sending: Option<Sending>,
}

/// An IN transfer after its first packet: N, what of it is sent, and D0.
#[derive(Clone, Copy, Debug, PartialEq, Eq)]
pub struct Sending {
    pub n: usize,
    pub sent: usize,
    pub all_that_is_left: bool,
}
