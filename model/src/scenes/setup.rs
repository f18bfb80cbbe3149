//! Setup packets that match a row, or nearly.

use crate::cells::*;
use crate::line::Call;
use crate::traffic::Traffic;
use crate::unit::{BULK_IN, BULK_OUT, INTERRUPT_IN};

impl Traffic {
    /// Setup packets that match a row, or miss it by one field, the rarest first.
    pub fn setup_rows_scene(&mut self) {
        for _ in 0..6 {
            let cells = self.coverage.setup_rows.rarest();
            let (row, column) = cells[self.random.below(8)];
            let packet = match column {
                COLUMN_TYPE.. => self.near_miss(row, column),
                _ => {
                    if column == COLUMN_UNCONFIGURED {
                        self.say_kind(Kind::Unconfigure);
                    } else {
                        self.tidy();
                    }
                    let row = &SETUP_ROWS[row];
                    let value = self.random.between(usize::from(row.values.0), usize::from(row.values.1)) as u16;
                    row.packet(value, self.random.pick(row.indices), row.length)
                }
            };
            let buffer = self.random.pick(&[24, 24, 24, 24, 25, 23]);
            self.say(Call::Setup(packet, buffer));
        }
        for (name, index, values) in [
            ("INITIATE_ABORT_BULK_OUT", BULK_OUT, [0, 1, 255, 256]),
            ("INITIATE_ABORT_BULK_IN", BULK_IN, [0, 1, 255, 256]),
            ("READ_STATUS_BYTE", 0, [1, 2, 127, 128]),
        ] {
            let value = self.random.pick(&values);
            let call = self.setup(name, value, index);
            self.say(call);
        }
        // Beside the addresses, and 0x83 where no row takes it.
        let name = self.random.pick(&["CLEAR_FEATURE", "SET_FEATURE", "GET_STATUS"]);
        let index = self.random.pick(&[0x03, 0x84, 0x183]);
        let call = self.setup(name, 0, index);
        self.say(call);
        let (name, value) = self.random.pick(&[
            ("INITIATE_ABORT_BULK_OUT", 1),
            ("INITIATE_ABORT_BULK_IN", 1),
            ("CHECK_ABORT_BULK_OUT", 0),
            ("CHECK_ABORT_BULK_IN", 0),
        ]);
        let call = self.setup(name, value, INTERRUPT_IN);
        self.say(call);
        for kind in [Kind::NoRow, Kind::SetupRefused] {
            self.say_kind(kind);
        }
    }
}
