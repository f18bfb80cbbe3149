//! What a call is answered: its number, what is told beside it, and how many bytes it wrote.

/// "What each number returns and leaves"; "14 is no longer given" (02, 2), and the others keep theirs.
#[derive(Clone, Copy, Debug, PartialEq, Eq)]
pub enum Number {
    Done = 0,
    Unconfigured = 2,
    WrongSize = 3,
    Halted = 4,
    Wait = 5,
    NotInFours = 6,
    ShortHeader = 7,
    BadTag = 8,
    UnknownMsgId = 9,
    Reserved = 10,
    WrongLength = 11,
    TooLong = 12,
    OutOfTurn = 13,
    NoRow = 15,
    NotNow = 16,
}

/// What an answer tells beside its number: "to trigger" the thermostat, "to pulse" the light.
#[derive(Clone, Copy, Debug, PartialEq, Eq)]
pub enum Tells {
    Trigger,
    Pulse,
}

/// The answer of a call. `length` bytes were written at the start of the lent buffer, if the call lends one.
#[derive(Clone, Copy, Debug, PartialEq, Eq)]
pub struct Answer {
    pub number: Number,
    pub tells: Option<Tells>,
    pub length: usize,
}

impl Answer {
    pub(super) fn done() -> Answer {
        Answer { number: Number::Done, tells: None, length: 0 }
    }

    pub(super) fn refused(number: Number) -> Answer {
        Answer { number, tells: None, length: 0 }
    }

    pub(super) fn written(buffer: &mut [u8], bytes: &[u8]) -> Answer {
        buffer[..bytes.len()].copy_from_slice(bytes);
        Answer { number: Number::Done, tells: None, length: bytes.len() }
    }
}
