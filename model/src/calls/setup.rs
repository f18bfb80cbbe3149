//! Setup packets: of a row, and near misses.

use crate::cells::*;
use crate::line::Call;
use crate::traffic::Traffic;
use crate::unit::CONTROL_BUFFER;

impl Traffic {
    pub fn setup(&mut self, name: &str, value: u16, index: u16) -> Call {
        let row = SETUP_ROWS.iter().find(|row| row.name == name).expect("the row has a name of the table");
        let buffer = match self.random.below(20) {
            0 => 25,
            1 => self.random.pick(&[64, 512, 2048]),
            _ => CONTROL_BUFFER,
        };
        Call::Setup(row.packet(value, index, row.length), buffer)
    }

    /// A setup packet that misses a row by the one field that `column` stands for.
    pub fn near_miss(&mut self, row: usize, column: usize) -> Vec<u8> {
        let row = &SETUP_ROWS[row];
        let value = self.random.between(usize::from(row.values.0), usize::from(row.values.1)) as u16;
        let index = self.random.pick(row.indices);
        let length = row.length;
        match column {
            COLUMN_TYPE => {
                let mut packet = row.packet(value, index, length);
                packet[0] = self.random.pick(&[0x00, 0x01, 0x02, 0x21, 0x22, 0x80, 0x81, 0x82, 0xA1, 0xA2, 0xA0, 0xC1]);
                packet
            }
            COLUMN_VALUE => {
                let (low, high) = row.values;
                let wrong = [low.wrapping_sub(1), high + 1, value | 0x100, value | 0x8000, self.random.next() as u16];
                row.packet(self.random.pick(&wrong), index, length)
            }
            COLUMN_INDEX => {
                let wrong =
                    [index ^ 1, index | 0x100, index | 0x8000, 0, 1, 2, 3, 0x81, 0x82, 0x83, 0x84, 0x183, index + 1];
                row.packet(value, self.random.pick(&wrong), length)
            }
            _ => {
                let wrong = [length + 1, length.wrapping_sub(1), length | 0x100, 0, 64, 0xFFFF];
                row.packet(value, index, self.random.pick(&wrong))
            }
        }
    }

    pub fn other_tag(&mut self, tag: u8) -> u16 {
        let other = match self.random.below(4) {
            0 => tag.wrapping_sub(1),
            1 => self.random.byte(),
            _ => tag.wrapping_add(1),
        };
        if other == 0 || other == tag {
            u16::from(tag) % 255 + 1
        } else {
            u16::from(other)
        }
    }
}
