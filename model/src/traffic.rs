//! Seeded random traffic for a comparison: good, nearly good and damaged.
//!
//! The traffic is made of scenes (`scenes`), which are made of calls (`calls`). A scene plays each line on the model at
//! once and looks at the model's unit and at the coverage to choose the next one, so that it comes to rare cells often.
//! The other program gets the same lines later, in blocks.

use crate::cells::{in_column, interrupt_column, out_column, split_column, Kind, KINDS};
use crate::coverage::Coverage;
use crate::line::{Call, Player, Unsound, LONGEST_LINE};
use crate::random::Random;
use crate::unit::{Number, CONTROL_BUFFER, STORE};

/// A line, without its newline, and the model's answer to it. A blank line or a comment has none.
#[derive(Clone, Debug)]
pub struct Exchange {
    pub line: String,
    pub answer: Option<String>,
}

pub struct Traffic {
    pub random: Random,
    pub player: Player,
    pub coverage: Coverage,
    exchanges: Vec<Exchange>,
    /// How many lines there were, the one that left the unit unsound with them.
    pub lines: u64,
    /// A line that left the model's unit unsound. The traffic ends before it: no more lines are sent.
    pub unsound: Option<Unsound>,
    /// The tag of the header before.
    pub tag: u8,
    pub scenes_left: usize,
    /// Once in how many calls of a scene a stray one comes before it; 0 for never.
    pub unrest: usize,
}

impl Traffic {
    pub fn new(seed: u64) -> Traffic {
        Traffic {
            random: Random::new(seed),
            player: Player::new(None),
            coverage: Coverage::new(),
            exchanges: Vec::new(),
            lines: 0,
            unsound: None,
            tag: 0,
            scenes_left: 3,
            unrest: 12,
        }
    }

    /// The next lines, at least `lines` of them unless the traffic ends.
    pub fn block(&mut self, lines: usize) -> Vec<Exchange> {
        while self.exchanges.len() < lines && self.unsound.is_none() {
            self.scene();
        }
        std::mem::take(&mut self.exchanges)
    }

    /// Which line of this seed's traffic left the model's unit unsound, and how.
    pub fn unsound_text(&self, seed: u64) -> Option<String> {
        let place = format!("line {} of the traffic of seed {seed}", self.lines);
        self.unsound.as_ref().map(|unsound| unsound.print(&place))
    }

    /// A last `state`; None where the traffic has ended.
    pub fn last(&mut self) -> Option<Exchange> {
        self.line("state".to_string());
        self.exchanges.pop()
    }

    /// Sends a line as it stands.
    pub fn line(&mut self, line: String) -> Option<Number> {
        // What is left of a scene gets refusals, from a unit that stays where it was.
        if self.unsound.is_some() {
            return Some(Number::Unconfigured);
        }
        self.lines += 1;
        let read = Call::read(line.as_bytes());
        self.coverage.observe_line(line.as_bytes(), &read);
        let (answer, number) = match read {
            Ok(None) => (None, None),
            Err(wrong) => (Some(format!("? {wrong}")), None),
            Ok(Some(call)) => {
                let before = self.player.unit.clone();
                match self.player.play(&call) {
                    Ok(answered) => {
                        self.coverage.observe(&before, &call, &answered, &self.player.unit);
                        (Some(answered.line()), Some(answered.number))
                    }
                    Err(unsound) => {
                        self.player.unit = before;
                        self.unsound = Some(unsound);
                        return Some(Number::Unconfigured);
                    }
                }
            }
        };
        self.exchanges.push(Exchange { line, answer });
        number
    }

    /// Sends a call, now and then in another way of writing it.
    pub fn send(&mut self, call: Call) -> Number {
        let mut line = call.line();
        if self.random.once_in(16) && line.len() < LONGEST_LINE - 32 {
            line = self.dressed(line);
        }
        self.line(line).expect("a call that was written down can be read")
    }

    pub fn dressed(&mut self, line: String) -> String {
        match self.random.below(6) {
            0 => match line.split_once(' ') {
                Some((name, rest)) => format!("{name} {}", rest.to_uppercase()),
                None => line,
            },
            1 => format!("\t {} ", line.replace(' ', "\t ")),
            2 => format!("{line} # a comment"),
            3 => format!("{line}\r"),
            4 if line == "in" => format!("in {}", self.player.unit.packet_size),
            4 if line == "in3" => "in3 2".to_string(),
            4 if line == "take" => format!("take {STORE}"),
            4 if line.starts_with("setup ") && line.matches(' ').count() == 1 => format!("{line} {CONTROL_BUFFER}"),
            _ => line,
        }
    }

    /// `state`, and `more` with every third, or where Interrupt-IN has something to show.
    pub fn state(&mut self) {
        self.send(Call::State);
        let unit = &self.player.unit;
        if unit.waiting.is_some() || unit.interrupt_halted || self.random.once_in(3) {
            self.send(Call::More);
        }
    }

    /// Sends a call of a scene: a stray one may come before it, and `state` follows about every fourth.
    pub fn say(&mut self, call: Call) -> Number {
        if self.unrest > 0 && self.random.once_in(self.unrest) {
            self.stray();
        }
        let number = self.send(call);
        if self.random.once_in(4) {
            self.state();
        }
        number
    }

    /// Sends one call of a kind, if there is one as the unit stands.
    pub fn say_kind(&mut self, kind: Kind) -> Option<Number> {
        let call = self.make(kind)?;
        Some(self.say(call))
    }

    pub fn say_one_of(&mut self, kinds: &[Kind]) {
        let kind = self.random.pick(kinds);
        self.say_kind(kind);
    }

    /// A call of the kind that the unit, as it stands, has met least.
    pub fn stray(&mut self) {
        let kind = self.aim();
        if let Some(call) = self.make(kind) {
            self.send(call);
            if self.random.once_in(2) {
                self.state();
            }
        }
    }

    pub fn aim(&mut self) -> Kind {
        if self.random.once_in(4) {
            return KINDS[self.random.below(KINDS.len())].0;
        }
        let unit = &self.player.unit;
        let (split, out, into) = (split_column(unit), out_column(unit), in_column(unit));
        let interrupt = interrupt_column(unit, self.coverage.taken_back);
        let start = self.random.below(KINDS.len());
        let mut best = (u64::MAX, Kind::In);
        for step in 0..KINDS.len() {
            let (kind, _) = KINDS[(start + step) % KINDS.len()];
            let row = kind as usize;
            let mut count = u64::MAX;
            if self.coverage.splits.allowed(row, split) && self.coverage.out_points.allowed(row, out) {
                count = self.coverage.splits.count(row, split).min(self.coverage.out_points.count(row, out));
                if let Some(into) = into {
                    count = count.min(self.coverage.in_points.count(row, into));
                }
                if let Some(interrupt) = interrupt {
                    count = count.min(self.coverage.interrupt_points.count(row, interrupt));
                }
            }
            if count < best.0 {
                best = (count, kind);
            }
        }
        best.1
    }
}

#[cfg(test)]
mod tests {
    use super::*;
    use crate::coverage::ENOUGH_CALLS;

    #[test]
    fn the_same_seed_gives_the_same_lines() {
        let lines =
            |seed| Traffic::new(seed).block(5_000).into_iter().map(|exchange| exchange.line).collect::<Vec<_>>();
        assert_eq!(lines(3), lines(3));
        assert_ne!(lines(3), lines(4));
    }

    #[test]
    fn no_allowed_cell_is_empty_after_enough_calls() {
        for seed in 1..=2 {
            let mut traffic = Traffic::new(seed);
            while traffic.coverage.calls < ENOUGH_CALLS {
                traffic.block(1_000);
                assert_eq!(traffic.unsound_text(seed), None);
            }
            assert_eq!(traffic.coverage.empty(), Vec::<String>::new(), "seed {seed}");
            assert_eq!(traffic.coverage.impossible(), Vec::<String>::new(), "seed {seed}");
        }
    }
}
