//! Scenes of the traffic: what hosts and thermostats do, and what they had better not. Which scene comes next, and how it
//! begins.

mod alignment;
mod bits;
mod breaks;
mod headers;
mod hosts;
mod interrupt_in;
mod lines;
mod points;
mod remote;
mod setup;
mod sizes;
mod steps;
mod term_char;
mod thermostat;

use crate::calls::REFUSED_SIZES;
use crate::cells::*;
use crate::line::Call;
use crate::traffic::Traffic;
use crate::unit::Split;

impl Traffic {
    pub fn life(&mut self) {
        self.scenes_left = self.random.between(5, 40);
        self.unrest = self.random.pick(&[0, 0, 60, 20, 8]);
        let size = match self.random.below(20) {
            0 => self.random.pick(&REFUSED_SIZES),
            1..=6 => 64,
            _ => 512,
        };
        self.say(Call::Power(size));
        if self.random.once_in(8) {
            self.unconfigured_scene();
        }
    }

    pub fn scene(&mut self) {
        if self.scenes_left == 0 {
            self.life();
            return;
        }
        self.scenes_left -= 1;
        if !self.random.once_in(6) {
            self.tidy();
        }
        match self.random.below(117) {
            0..=6 => self.host_scene(),
            7..=14 => self.message_sizes_scene(),
            15..=22 => self.reply_sizes_scene(),
            23..=26 => self.near_full_scene(),
            27..=33 => self.header_faults_scene(),
            34..=39 => self.header_edges_scene(),
            40..=45 => self.continuing_faults_scene(),
            46..=48 => self.reserved_scene(),
            49..=53 => self.abort_out_scene(),
            54..=59 => self.abort_in_scene(),
            60..=64 => self.clear_scene(),
            65..=73 => self.points_scene(),
            74..=75 => self.interrupted_scene(),
            76..=79 => self.setup_rows_scene(),
            80..=84 => self.remote_scene(),
            85..=89 => self.term_char_scene(),
            90..=93 => self.thermostat_scene(),
            94 => self.lines_scene(),
            95..=96 => self.unconfigured_scene(),
            97..=99 => self.wander_scene(),
            100..=103 => self.interrupt_scene(),
            104..=107 => self.interrupt_events_scene(),
            108..=113 => self.old_bytes_scene(),
            _ => self.bits_scene(),
        }
    }

    /// Brings the unit back to where a transfer can begin, in the ways a host has.
    pub fn tidy(&mut self) {
        for _ in 0..12 {
            let unit = &self.player.unit;
            let kind = if !unit.configured {
                Kind::Configure
            } else if unit.in_halted {
                Kind::ClearFeatureIn
            } else if unit.owed {
                self.random.pick(&[Kind::In, Kind::In, Kind::In, Kind::ClearFeatureIn])
            } else if unit.split != Split::None {
                match unit.split {
                    Split::AbortOut { .. } => Kind::CheckAbortOut,
                    Split::AbortIn { .. } => Kind::CheckAbortIn,
                    _ => Kind::CheckClear,
                }
            } else if unit.out_halted {
                Kind::ClearFeatureOut
            } else if unit.message_ready() {
                Kind::Take
            } else if unit.out_transfer.is_some() {
                self.random.pick(&[Kind::OutContinuing, Kind::AbortOut, Kind::ClearFeatureOut])
            } else if unit.message_unfinished() {
                self.random.pick(&[Kind::OutMessage, Kind::ClearFeatureOut])
            } else if unit.in_transfer.is_some() && unit.reply.is_some() {
                self.random.pick(&[Kind::In, Kind::In, Kind::In, Kind::In, Kind::AbortIn])
            } else if unit.in_transfer.is_some() {
                self.random.pick(&[Kind::Offer, Kind::AbortIn, Kind::ClearFeatureIn, Kind::InitiateClear])
            } else {
                return;
            };
            self.say_kind(kind);
        }
    }

    /// SET_CONFIGURATION 1, which puts all but P back to power-on, with no stray call before it.
    pub fn fresh(&mut self) {
        let call = self.setup("SET_CONFIGURATION", 1, 0);
        self.send(call);
    }

    pub fn quietly(&mut self, scene: impl FnOnce(&mut Traffic)) {
        let unrest = std::mem::replace(&mut self.unrest, 0);
        scene(self);
        self.unrest = unrest;
    }
}
