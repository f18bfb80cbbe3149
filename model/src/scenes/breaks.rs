//! Aborts, clears and halts in the middle of a transfer.

use crate::cells::*;
use crate::line::Call;
use crate::traffic::Traffic;
use crate::unit::{HEADER, STORE};

impl Traffic {
    /// An OUT transfer that is aborted after some of its packets.
    pub fn abort_out_scene(&mut self) {
        if self.random.once_in(3) {
            self.transfer(3, false);
        }
        let p = self.player.unit.packet_size;
        let room = STORE - self.player.unit.held();
        if room <= p - HEADER {
            return;
        }
        let sweep = &self.coverage.out_counts[size_column(&self.player.unit)];
        let packets = 1 + sweep.missing(self.random.below(sweep.len()));
        let least = packets * p - HEADER + 1;
        let size = if least < room { self.random.between(least, room) } else { room };
        let packet = self.message_packet(size as u32, true);
        self.say(Call::Out(packet));
        self.continue_transfer(packets - 1);
        self.say_one_of(&[Kind::AbortOut, Kind::AbortOut, Kind::AbortOut, Kind::AbortOutOtherTag]);
        for _ in 0..self.random.between(1, 6) {
            self.say_one_of(&[
                Kind::CheckAbortOut,
                Kind::CheckAbortOut,
                Kind::CheckAbortIn,
                Kind::CheckClear,
                Kind::AbortOut,
                Kind::AbortIn,
                Kind::ClearFeatureOut,
                Kind::OutMessage,
                Kind::OutContinuing,
                Kind::InitiateClear,
                Kind::GetStatusOut,
            ]);
            if self.random.once_in(6) {
                self.stray();
            }
        }
        self.tidy();
    }

    /// An IN transfer that is aborted before, between or after its packets.
    pub fn abort_in_scene(&mut self) {
        if self.player.unit.reply.is_some() {
            self.fresh();
        }
        if self.random.once_in(5) {
            self.request(1000, None);
        } else {
            let sweep = &self.coverage.in_counts[size_column(&self.player.unit)];
            let packets = sweep.missing(self.random.below(sweep.len()));
            let closing = self.random.once_in(3);
            self.send_packets(packets, closing);
        }
        if self.random.once_in(6) {
            self.say_kind(Kind::SetFeatureIn);
        }
        self.say_one_of(&[Kind::AbortIn, Kind::AbortIn, Kind::AbortIn, Kind::AbortInOtherTag]);
        if self.random.once_in(4) {
            // The packet is polled, and a new transfer opens before the CHECK.
            self.say_kind(Kind::In);
            self.say_kind(Kind::OutRequest);
            self.say_one_of(&[
                Kind::InitiateClear,
                Kind::InitiateClear,
                Kind::AbortIn,
                Kind::Offer,
                Kind::ClearFeatureIn,
            ]);
        }
        for _ in 0..self.random.between(1, 8) {
            self.say_one_of(&[
                Kind::CheckAbortIn,
                Kind::CheckAbortIn,
                Kind::In,
                Kind::In,
                Kind::In,
                Kind::InSmall,
                Kind::Offer,
                Kind::Offer,
                Kind::OutRequest,
                Kind::OutTrigger,
                Kind::OutMessage,
                Kind::Take,
                Kind::AbortIn,
                Kind::AbortOut,
                Kind::CheckAbortOut,
                Kind::CheckClear,
                Kind::ClearFeatureOut,
                Kind::ClearFeatureIn,
                Kind::SetFeatureIn,
                Kind::InitiateClear,
            ]);
            if self.random.once_in(8) {
                self.stray();
            }
        }
        self.tidy();
    }

    /// A clear from wherever the unit stands.
    pub fn clear_scene(&mut self) {
        if self.random.once_in(2) {
            self.fresh();
        }
        if self.random.once_in(3) {
            self.say_kind(Kind::RenOn);
            self.say_kind(Kind::Status);
        }
        if self.random.once_in(2) {
            let column = self.random.below(INTERRUPT_COLUMNS.len());
            self.reach_interrupt_point(column);
        }
        if !self.random.once_in(3) {
            let column = self.random.below(11);
            self.reach_in_point(column);
        }
        let column = self.random.between(1, 7);
        self.reach_out_point(column);
        self.say_kind(Kind::InitiateClear);
        for _ in 0..self.random.between(1, 8) {
            self.say_one_of(&[
                Kind::CheckClear,
                Kind::CheckClear,
                Kind::In,
                Kind::In,
                Kind::InSmall,
                Kind::Offer,
                Kind::OfferRefused,
                Kind::AbortIn,
                Kind::AbortOutOtherTag,
                Kind::CheckAbortIn,
                Kind::CheckAbortOut,
                Kind::ClearFeatureOut,
                Kind::ClearFeatureIn,
                Kind::SetFeatureIn,
                Kind::InitiateClear,
                Kind::OutMessage,
                Kind::Take,
            ]);
            if self.random.once_in(8) {
                self.stray();
            }
        }
        self.tidy();
    }

    /// A clear or a halt after so many packets of a transfer, those not seen yet first.
    pub fn interrupted_scene(&mut self) {
        for _ in 0..3 {
            self.quietly(|traffic| {
                traffic.fresh();
                let p = traffic.player.unit.packet_size;
                let index = traffic.random.below(INTERRUPTIONS.len());
                let sweep = &traffic.coverage.interrupted[index][size_column(&traffic.player.unit)];
                let packets = sweep.missing(traffic.random.below(sweep.len()));
                let (interruption, _) = INTERRUPTIONS[index];
                if interrupts_out(interruption) {
                    let least = (packets + 1) * p - HEADER + 1;
                    let size = traffic.random.between(least, STORE);
                    let packet = traffic.message_packet(size as u32, true);
                    traffic.say(Call::Out(packet));
                    traffic.continue_transfer(packets);
                } else {
                    let closing = traffic.random.once_in(3);
                    traffic.send_packets(packets, closing);
                }
                let kind = match interruption {
                    Interruption::ClearOut | Interruption::ClearIn => Kind::InitiateClear,
                    Interruption::SetFeatureOut => Kind::SetFeatureOut,
                    Interruption::ClearFeatureOut => Kind::ClearFeatureOut,
                    Interruption::SetFeatureIn => Kind::SetFeatureIn,
                    Interruption::ClearFeatureIn => Kind::ClearFeatureIn,
                };
                traffic.say_kind(kind);
                traffic.state();
                traffic.say_one_of(&[Kind::In, Kind::OutMessage, Kind::OutRequest, Kind::CheckClear]);
            });
            self.tidy();
        }
    }
}
