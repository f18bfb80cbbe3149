//! A unit that is driven by calls, and is asked after each whether it is sound.

use super::answered::{more, state};
use super::{Answered, Call};
use crate::unit::{Answer, Clause, Fault, Number, Unit};

/// What a lent buffer is filled with before the call.
const FILL: u8 = 0xA5;

/// A call that left the model's unit unsound: the call, the first clause that is broken, and what the unit shows.
pub struct Unsound {
    pub call: String,
    pub clause: &'static Clause,
    pub state: String,
}

impl Unsound {
    /// What is wrong, for the place where it came up.
    pub fn print(&self, place: &str) -> String {
        let Unsound { call, clause, state } = self;
        format!(
            "UNSOUND: {place} leaves the model's unit unsound. That is a fault of the model, and the run stops there.\n  \
             call     {call}\n  clause   {}: {}\n  state    {state}\n\
             Find the sentence of 01 or 02 that decides it, and put right the model or its clause.\n",
            clause.name,
            clause.says,
        )
    }
}

/// A unit that is driven by lines. "Before the first `power` the unit is that of `power 64`."
pub struct Player {
    pub unit: Unit,
    fault: Option<Fault>,
    /// Whether the unit is to be sound after each call. With a fault it is not: that is to be found by its answers.
    pub is_watched: bool,
}

impl Player {
    pub fn new(fault: Option<Fault>) -> Player {
        let mut player = Player { unit: Unit::power_on(64).0, fault, is_watched: fault.is_none() };
        player.unit.fault = fault;
        player
    }

    /// The answer line to a line, or None where there is none to give.
    pub fn answer(&mut self, line: &[u8]) -> Result<Option<String>, Unsound> {
        match Call::read(line) {
            Ok(None) => Ok(None),
            Ok(Some(call)) => Ok(Some(self.play(&call)?.line())),
            Err(wrong) => Ok(Some(format!("? {wrong}"))),
        }
    }

    /// Plays a call, and asks whether the unit is sound after it.
    pub fn play(&mut self, call: &Call) -> Result<Answered, Unsound> {
        let answered = self.answered(call);
        match self.unit.unsound() {
            Some(clause) if self.is_watched => {
                let state = format!("{} {}", state(&self.unit), more(&self.unit));
                Err(Unsound { call: call.line(), clause, state })
            }
            _ => Ok(answered),
        }
    }

    fn answered(&mut self, call: &Call) -> Answered {
        let answer = match call {
            Call::Power(size) => {
                // "A `power` answered 3 replaces the unit too."
                let (unit, number) = Unit::power_on(*size);
                self.unit = Unit { fault: self.fault, ..unit };
                return Answered { number, tells: None, bytes: None, spilled: false, state: None };
            }
            Call::Setup(packet, size) => return self.lend(*size, |unit, buffer| unit.setup(packet, buffer)),
            Call::In(size) => {
                let size = size.unwrap_or(self.unit.packet_size);
                return self.lend(size, |unit, buffer| unit.bulk_in(buffer));
            }
            Call::In3(size) => return self.lend(*size, |unit, buffer| unit.interrupt_in(buffer)),
            Call::Take(size) => return self.lend(*size, |unit, buffer| unit.take(buffer)),
            Call::Out(packet) => self.unit.bulk_out(packet),
            Call::Offer(reply) => self.unit.offer(reply),
            Call::Status(status) => self.unit.set_status(*status),
            Call::Local => self.unit.return_to_local(),
            Call::Reset => self.unit.bus_reset(),
            Call::Suspend => self.unit.suspend(),
            Call::State | Call::More => {
                let state = Some(if *call == Call::State { state(&self.unit) } else { more(&self.unit) });
                return Answered { number: Number::Done, tells: None, bytes: None, spilled: false, state };
            }
        };
        Answered { number: answer.number, tells: answer.tells, bytes: None, spilled: false, state: None }
    }

    /// Lends a filled buffer to a call, and looks at what came back.
    fn lend(&mut self, size: usize, call: impl FnOnce(&mut Unit, &mut [u8]) -> Answer) -> Answered {
        let mut buffer = vec![FILL; size];
        let answer = call(&mut self.unit, &mut buffer);
        let written = if answer.number == Number::Done { answer.length } else { 0 };
        let spilled = buffer[written..].iter().any(|&byte| byte != FILL);
        let bytes = (answer.number == Number::Done).then(|| buffer[..written].to_vec());
        Answered { number: answer.number, tells: answer.tells, bytes, spilled, state: None }
    }
}

#[cfg(test)]
mod tests {
    use super::*;

    fn told(player: &mut Player, line: &str) -> Option<String> {
        player.answer(line.as_bytes()).unwrap_or_else(|unsound| panic!("{}", unsound.print(line)))
    }

    /// In every build: the assertions of Rust are off in a release.
    #[test]
    fn a_call_that_leaves_the_unit_unsound_is_told() {
        let mut player = Player::new(None);
        assert_eq!(told(&mut player, "setup 0009010000000000"), Some("0 -".to_string()));
        player.unit.status = 0x40;
        let Err(unsound) = player.answer(b"local # a comment") else { panic!("nothing is told") };
        assert_eq!(unsound.clause.name, "kept-bit-6");
        let text = unsound.print("line 2");
        for words in ["line 2", "local", "kept-bit-6: a service request is kept just while", "status=40", "int=none"] {
            assert!(text.contains(words), "{words}: {text}");
        }
        // A fault is there to be found by its answers.
        let mut player = Player::new(Some(Fault::PacketWithdrawn));
        assert_eq!(told(&mut player, "setup 0009010000000000"), Some("0 -".to_string()));
        player.unit.status = 0x40;
        assert_eq!(told(&mut player, "local"), Some("0".to_string()));
    }

    #[test]
    fn lines_that_cannot_be_read_change_nothing() {
        for line in [
            "powers 64",
            "power",
            "power 64 1",
            "power 65536",
            "power 99999999999999999999999",
            "power -",
            "power 0x40",
            "power -1",
            "setup",
            "setup 00 24 1",
            "setup 00 2049",
            "setup 0",
            "out",
            "out 123",
            "out 0g",
            "out 00 00",
            "in -",
            "in 2049",
            "in 64 64",
            "in3 -",
            "in3 2049",
            "in3 2 2",
            "in4",
            "in 3 2",
            "take 2049",
            "take x",
            "offer",
            "offer 4",
            "offer 41 42",
            "status",
            "status 4",
            "status 414",
            "status -",
            "status 4142",
            "status 4g",
            "local 1",
            "reset now",
            "suspend 0",
            "state 1",
            "more 1",
            "out --",
            "POWER 64",
            "64",
        ] {
            let mut player = Player::new(None);
            assert_eq!(told(&mut player, "setup 0009010000000000"), Some("0 -".to_string()));
            let before = player.unit.clone();
            let answer = told(&mut player, line).unwrap();
            assert!(answer.starts_with("? "), "{line}: {answer}");
            assert!(player.unit == before, "{line}");
        }
    }
}
