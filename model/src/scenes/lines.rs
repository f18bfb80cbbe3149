//! Lines that cannot be read, and lines that may be left out.

use crate::line::LONGEST_LINE;
use crate::traffic::Traffic;

/// Lines that cannot be read, whatever the unit.
#[rustfmt::skip]
const UNREADABLE: [&str; 47] = [
    "powers 64", "power", "power 64 64", "power 65536", "power 4294967360", "power 18446744073709551680", "power -",
    "power 40h", "power -64", "setup", "setup 0009010000000000 24 24", "setup 0009010000000000 2049",
    "setup 000901000000000", "setup 00090100000000g0", "setup 0009010000000000 -", "out", "out 0", "out 0x01",
    "out 01 01", "out --", "in -", "in 2049", "in 64 64", "in 99999999999999999999", "in p", "take 2049", "take -1",
    "take 1024 1", "offer", "offer 414", "offer 41 42", "offer 4z", "status", "status 4", "status 041", "status -",
    "local 0", "reset 1", "suspend 1", "state 0", "in3 -", "in3 2049", "in3 2 2", "in3 0x2", "in 3 2", "in4", "more 0",
];

impl Traffic {
    /// Lines that cannot be read, and lines that may be left out.
    pub fn lines_scene(&mut self) {
        for _ in 0..4 {
            let line = match self.random.below(10) {
                0 => String::new(),
                1 => " \t ".to_string(),
                2 => "# power 64".to_string(),
                3 => format!("offer {}", "41".repeat((LONGEST_LINE - "offer ".len()) / 2)),
                4 => format!("offer {}", "41".repeat((LONGEST_LINE - "offer ".len()) / 2 + 1)),
                5 => format!("state{}", " ".repeat(LONGEST_LINE - 4)),
                6 => format!("state{}", " ".repeat(LONGEST_LINE - 5)),
                7 => "out ".repeat(self.random.pick(&[1025, 5_000, 40_000])),
                _ => UNREADABLE[self.random.below(UNREADABLE.len())].to_string(),
            };
            self.line(line);
            self.state();
        }
    }
}
