//! A call of each kind, as the unit stands.

use super::REFUSED_SIZES;
use crate::cells::*;
use crate::line::{Call, LONGEST_LINE};
use crate::traffic::Traffic;
use crate::unit::{BIT_6, BULK_IN, BULK_OUT, CONTROL_BUFFER, INTERRUPT_IN, STORE};

impl Traffic {
    /// A call of a kind, as the unit stands. None where there is no such call now.
    pub fn make(&mut self, kind: Kind) -> Option<Call> {
        let p = self.player.unit.packet_size;
        let call = match kind {
            // A refused size gives 64 too.
            Kind::Power => Call::Power(self.random.pick(&[64, 512, 512, 512, 512])),
            Kind::PowerRefused => Call::Power(self.random.pick(&REFUSED_SIZES)),
            Kind::AbortOut => {
                let tag = abort_tag_out(&self.player.unit);
                self.setup("INITIATE_ABORT_BULK_OUT", u16::from(tag), BULK_OUT)
            }
            Kind::AbortOutOtherTag => {
                let tag = abort_tag_out(&self.player.unit);
                let tag = self.other_tag(tag);
                self.setup("INITIATE_ABORT_BULK_OUT", tag, BULK_OUT)
            }
            Kind::CheckAbortOut => self.setup("CHECK_ABORT_BULK_OUT", 0, BULK_OUT),
            Kind::AbortIn => {
                let tag = abort_tag_in(&self.player.unit);
                self.setup("INITIATE_ABORT_BULK_IN", u16::from(tag), BULK_IN)
            }
            Kind::AbortInOtherTag => {
                let tag = abort_tag_in(&self.player.unit);
                let tag = self.other_tag(tag);
                self.setup("INITIATE_ABORT_BULK_IN", tag, BULK_IN)
            }
            Kind::CheckAbortIn => self.setup("CHECK_ABORT_BULK_IN", 0, BULK_IN),
            Kind::InitiateClear => self.setup("INITIATE_CLEAR", 0, 0),
            Kind::CheckClear => self.setup("CHECK_CLEAR_STATUS", 0, 0),
            Kind::GetCapabilities => self.setup("GET_CAPABILITIES", 0, 0),
            Kind::IndicatorPulse => self.setup("INDICATOR_PULSE", 0, 0),
            Kind::ReadStatusByte => {
                let waits = self.player.unit.waiting.is_some();
                let sweep = if waits { &self.coverage.status_tags_busy } else { &self.coverage.status_tags };
                let tag = sweep.missing(self.random.below(sweep.len())) as u16 + 2;
                let tag = self.random.pick(&[tag, tag, tag, 2, 127]);
                self.setup("READ_STATUS_BYTE", tag, 0)
            }
            Kind::RenOff => self.setup("REN_CONTROL", 0, 0),
            Kind::RenOn => self.setup("REN_CONTROL", 1, 0),
            Kind::GoToLocal => self.setup("GO_TO_LOCAL", 0, 0),
            Kind::LocalLockout => self.setup("LOCAL_LOCKOUT", 0, 0),
            Kind::ClearFeatureOut => self.setup("CLEAR_FEATURE", 0, BULK_OUT),
            Kind::ClearFeatureIn => self.setup("CLEAR_FEATURE", 0, BULK_IN),
            Kind::ClearFeatureInterrupt => self.setup("CLEAR_FEATURE", 0, INTERRUPT_IN),
            Kind::SetFeatureOut => self.setup("SET_FEATURE", 0, BULK_OUT),
            Kind::SetFeatureIn => self.setup("SET_FEATURE", 0, BULK_IN),
            Kind::SetFeatureInterrupt => self.setup("SET_FEATURE", 0, INTERRUPT_IN),
            Kind::GetStatusOut => self.setup("GET_STATUS", 0, BULK_OUT),
            Kind::GetStatusIn => self.setup("GET_STATUS", 0, BULK_IN),
            Kind::GetStatusInterrupt => self.setup("GET_STATUS", 0, INTERRUPT_IN),
            Kind::Unconfigure => self.setup("SET_CONFIGURATION", 0, 0),
            Kind::Configure => self.setup("SET_CONFIGURATION", 1, 0),
            Kind::NoRow => {
                let packet = match self.random.below(8) {
                    0 => (0..8).map(|_| self.random.byte()).collect(),
                    // Standard requests that stay with the old firmware: GET_DESCRIPTOR, SET_INTERFACE, GET_STATUS of
                    // the device, SET_ADDRESS, GET_CONFIGURATION.
                    1 => self
                        .random
                        .pick(&[
                            [0x80, 6, 0, 1, 0, 0, 18, 0],
                            [0x01, 11, 0, 0, 0, 0, 0, 0],
                            [0x80, 0, 0, 0, 0, 0, 2, 0],
                            [0x00, 5, 7, 0, 0, 0, 0, 0],
                            [0x80, 8, 0, 0, 0, 0, 1, 0],
                        ])
                        .to_vec(),
                    _ => {
                        let row = self.random.below(SETUP_ROWS.len());
                        let column = self.random.between(COLUMN_TYPE, COLUMN_LENGTH);
                        self.near_miss(row, column)
                    }
                };
                Call::Setup(packet, CONTROL_BUFFER)
            }
            Kind::SetupRefused => {
                let row = self.random.below(SETUP_ROWS.len());
                let column = self.random.between(COLUMN_UNCONFIGURED, COLUMN_LENGTH);
                let good = &SETUP_ROWS[row];
                let mut packet = good.packet(good.values.1, good.indices[0], good.length);
                if column != COLUMN_UNCONFIGURED {
                    packet = self.near_miss(row, column);
                }
                match self.random.below(3) {
                    0 => {
                        packet.resize(self.random.pick(&[0, 1, 7, 9, 16]), 0);
                        Call::Setup(packet, CONTROL_BUFFER)
                    }
                    _ => Call::Setup(packet, self.random.pick(&[23, 23, 23, 0, 1, 8])),
                }
            }
            Kind::OutTooLong => {
                let length = match self.random.below(4) {
                    0 => p + 1,
                    1 => p + 4,
                    2 => self.random.between(p + 1, 2 * p),
                    _ => self.random.between(p + 1, (LONGEST_LINE - 4) / 2),
                };
                let mut packet = match self.random.below(2) {
                    0 => self.any_message(),
                    _ => self.data(1),
                };
                packet.resize(length, self.random.byte());
                Call::Out(packet)
            }
            Kind::OutEmpty => Call::Out(Vec::new()),
            Kind::OutMessage => Call::Out(self.any_message()),
            Kind::OutRequest => Call::Out(self.any_request()),
            Kind::OutTrigger => Call::Out(self.trigger_packet()),
            Kind::OutUnknown => Call::Out(self.unknown_packet()),
            Kind::OutContinuing => {
                let mut packet = self.continuing_packet()?;
                if self.random.once_in(4) {
                    packet = self.damaged_continuing(packet);
                }
                Call::Out(packet)
            }
            Kind::In => Call::In(self.random.pick(&[None, None, None, Some(p), Some(p + 1), Some(2048)])),
            Kind::InSmall => Call::In(Some(self.random.pick(&[p - 1, p - 1, 0, 1, p / 2]))),
            Kind::In3 => Call::In3(self.random.pick(&[2, 2, 2, 2, 3, 64, 2048])),
            Kind::In3Small => Call::In3(self.random.pick(&[0, 1, 1])),
            Kind::Take => {
                let held = self.player.unit.held();
                let around = [held.saturating_sub(1), held, held + 1, 0, STORE, STORE, STORE, 2048];
                Call::Take(self.random.pick(&around))
            }
            Kind::Offer => {
                let size = self.any_size();
                Call::Offer(self.data(size))
            }
            Kind::OfferRefused => {
                let start = self.random.below(76);
                let long = self.coverage.replies_refused.missing(start) + STORE + 1;
                let longest = (LONGEST_LINE - "offer ".len()) / 2;
                let size = self.random.pick(&[0, 0, STORE + 1, long, long, longest]);
                Call::Offer(self.data(size))
            }
            Kind::Status => {
                let missing = status_byte(self.coverage.bytes_read.missing(self.random.below(128)));
                Call::Status(self.random.pick(&[missing, missing, 0x00, 0xBF]))
            }
            Kind::ServiceRequest => {
                let waits = self.player.unit.waiting.is_some();
                let sweep = if waits { &self.coverage.bytes_kept } else { &self.coverage.bytes_requested };
                let missing = status_byte(sweep.missing(self.random.below(128))) | BIT_6;
                Call::Status(self.random.pick(&[missing, missing, BIT_6, 0xFF]))
            }
            Kind::Local => Call::Local,
            Kind::Reset => Call::Reset,
            Kind::Suspend => Call::Suspend,
        };
        // A tag of 0 matches no row, and a packet inside a transfer is a continuing one.
        (Kind::of(&self.player.unit, &call) == Some(kind)).then_some(call)
    }
}
