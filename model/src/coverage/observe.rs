//! A line or a call is counted: what all calls have in common.

use super::grid::Grid;
use super::Coverage;
use crate::cells::*;
use crate::line::{Answered, Call, LONGEST_LINE};
use crate::unit::Unit;

impl Coverage {
    /// A line that is not a call, or how a line with a call was written.
    pub fn observe_line(&mut self, line: &[u8], read: &Result<Option<Call>, String>) {
        match read {
            Err(_) if line.len() > LONGEST_LINE => self.lines.hit(1, 0),
            Err(_) => self.lines.hit(0, 0),
            Ok(None) => self.lines.hit(3, 0),
            Ok(Some(_)) => {
                if line.len() == LONGEST_LINE {
                    self.lines.hit(2, 0);
                }
                if line.contains(&b'#') {
                    self.lines.hit(4, 0);
                }
                if line.ends_with(b"\r") {
                    self.lines.hit(5, 0);
                }
                if line.contains(&b'\t') {
                    self.lines.hit(6, 0);
                }
                if line.iter().any(u8::is_ascii_uppercase) {
                    self.lines.hit(7, 0);
                }
            }
        }
    }

    /// One call, the unit before and after it, and how it was answered.
    pub fn observe(&mut self, before: &Unit, call: &Call, answered: &Answered, after: &Unit) {
        let number = NUMBERS.iter().position(|&number| number == answered.number as u8).unwrap();
        self.numbers.hit(number_row(before, call), number);
        let Some(kind) = Kind::of(before, call) else {
            self.states += 1;
            if *call == Call::State {
                if let Some((row, column)) = self.remote_event.take() {
                    self.remote.hit(row, column);
                }
                self.observe_state(before);
            }
            return;
        };
        self.calls += 1;
        self.splits.hit(kind as usize, split_column(before));
        self.out_points.hit(kind as usize, out_column(before));
        if let Some(column) = in_column(before) {
            self.in_points.hit(kind as usize, column);
        }
        if let Some(column) = interrupt_column(before, self.taken_back) {
            self.interrupt_points.hit(kind as usize, column);
        }
        self.observe_interrupt(before, kind, call, answered, after);
        let old_bytes = matches!(call, Call::Out(packet) if has_old_bytes(before, packet));
        self.observe_old_bytes(before, kind, old_bytes, answered, after);
        self.remote_event = remote_event(kind, old_bytes, answered).map(|column| (remote_row(before), column));
        match call {
            Call::Setup(packet, buffer) => self.observe_setup(before, kind, packet, *buffer, answered),
            Call::Out(packet) => self.observe_out(before, packet, answered, after),
            Call::In(buffer) => self.observe_in(before, buffer.unwrap_or(before.packet_size), answered, after),
            Call::Take(buffer) => self.observe_take(before, *buffer, answered),
            Call::Offer(reply) => self.observe_offer(before, reply.len(), answered),
            Call::Reset if !before.configured => self.boundary(before, "reset, unconfigured"),
            Call::Suspend if !before.configured => self.boundary(before, "suspend, unconfigured"),
            _ => {}
        }
    }

    pub(super) fn boundary(&mut self, before: &Unit, name: &str) {
        let row = self.boundary_rows[name];
        self.boundaries.hit(row, size_column(before));
    }

    /// Counts each name whose condition holds.
    pub(super) fn boundaries(&mut self, before: &Unit, cells: &[(bool, &str)]) {
        for (holds, name) in cells {
            if *holds {
                self.boundary(before, name);
            }
        }
    }
}

/// Counts the fault that was answered with each other fault that is there, or with itself where it is alone.
pub(super) fn count_faults(grid: &mut Grid, present: &[bool], number: u8, order: &[u8]) {
    let Some(row) = order.iter().position(|&fault| fault == number) else { return };
    let mut alone = true;
    for column in (0..present.len()).filter(|&column| column != row && present[column]) {
        alone = false;
        grid.hit(row, column);
    }
    if alone {
        grid.hit(row, row);
    }
}
