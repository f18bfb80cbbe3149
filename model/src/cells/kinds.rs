//! What a call is, seen together with the unit that it comes to.

use super::SETUP_ROWS;
use crate::line::Call;
use crate::unit::{Unit, BIT_6, BULK_IN, BULK_OUT, NOTIFY, STORE};

/// What a call is, seen together with the unit it comes to. `state` and `more` are none of these.
#[derive(Clone, Copy, Debug, PartialEq, Eq)]
pub enum Kind {
    Power,
    PowerRefused,
    /// With the tag of the open transfer, else the most recent one.
    AbortOut,
    AbortOutOtherTag,
    CheckAbortOut,
    AbortIn,
    AbortInOtherTag,
    CheckAbortIn,
    InitiateClear,
    CheckClear,
    GetCapabilities,
    IndicatorPulse,
    ReadStatusByte,
    RenOff,
    RenOn,
    GoToLocal,
    LocalLockout,
    ClearFeatureOut,
    ClearFeatureIn,
    ClearFeatureInterrupt,
    SetFeatureOut,
    SetFeatureIn,
    SetFeatureInterrupt,
    GetStatusOut,
    GetStatusIn,
    GetStatusInterrupt,
    Unconfigure,
    Configure,
    NoRow,
    SetupRefused,
    OutTooLong,
    OutEmpty,
    OutMessage,
    OutRequest,
    OutTrigger,
    OutUnknown,
    OutContinuing,
    In,
    InSmall,
    In3,
    In3Small,
    Take,
    Offer,
    OfferRefused,
    /// Bit 6 off
    Status,
    /// Bit 6 on
    ServiceRequest,
    Local,
    Reset,
    Suspend,
}

#[rustfmt::skip]
pub const KINDS: [(Kind, &str); 49] = [
    (Kind::Power, "power"),
    (Kind::PowerRefused, "power, refused size"),
    (Kind::AbortOut, "INITIATE_ABORT_BULK_OUT, its tag"),
    (Kind::AbortOutOtherTag, "INITIATE_ABORT_BULK_OUT, other tag"),
    (Kind::CheckAbortOut, "CHECK_ABORT_BULK_OUT"),
    (Kind::AbortIn, "INITIATE_ABORT_BULK_IN, its tag"),
    (Kind::AbortInOtherTag, "INITIATE_ABORT_BULK_IN, other tag"),
    (Kind::CheckAbortIn, "CHECK_ABORT_BULK_IN"),
    (Kind::InitiateClear, "INITIATE_CLEAR"),
    (Kind::CheckClear, "CHECK_CLEAR_STATUS"),
    (Kind::GetCapabilities, "GET_CAPABILITIES"),
    (Kind::IndicatorPulse, "INDICATOR_PULSE"),
    (Kind::ReadStatusByte, "READ_STATUS_BYTE"),
    (Kind::RenOff, "REN_CONTROL 0"),
    (Kind::RenOn, "REN_CONTROL 1"),
    (Kind::GoToLocal, "GO_TO_LOCAL"),
    (Kind::LocalLockout, "LOCAL_LOCKOUT"),
    (Kind::ClearFeatureOut, "CLEAR_FEATURE 0x01"),
    (Kind::ClearFeatureIn, "CLEAR_FEATURE 0x82"),
    (Kind::ClearFeatureInterrupt, "CLEAR_FEATURE 0x83"),
    (Kind::SetFeatureOut, "SET_FEATURE 0x01"),
    (Kind::SetFeatureIn, "SET_FEATURE 0x82"),
    (Kind::SetFeatureInterrupt, "SET_FEATURE 0x83"),
    (Kind::GetStatusOut, "GET_STATUS 0x01"),
    (Kind::GetStatusIn, "GET_STATUS 0x82"),
    (Kind::GetStatusInterrupt, "GET_STATUS 0x83"),
    (Kind::Unconfigure, "SET_CONFIGURATION 0"),
    (Kind::Configure, "SET_CONFIGURATION 1"),
    (Kind::NoRow, "setup, no row"),
    (Kind::SetupRefused, "setup, wrong size"),
    (Kind::OutTooLong, "out above P"),
    (Kind::OutEmpty, "out, empty"),
    (Kind::OutMessage, "out, DEV_DEP_MSG_OUT"),
    (Kind::OutRequest, "out, REQUEST"),
    (Kind::OutTrigger, "out, TRIGGER"),
    (Kind::OutUnknown, "out, other MsgID"),
    (Kind::OutContinuing, "out, continuing"),
    (Kind::In, "in"),
    (Kind::InSmall, "in under P"),
    (Kind::In3, "in3"),
    (Kind::In3Small, "in3 under 2"),
    (Kind::Take, "take"),
    (Kind::Offer, "offer"),
    (Kind::OfferRefused, "offer, wrong size"),
    (Kind::Status, "status, bit 6 off"),
    (Kind::ServiceRequest, "status, bit 6 on"),
    (Kind::Local, "local"),
    (Kind::Reset, "reset"),
    (Kind::Suspend, "suspend"),
];

impl Kind {
    pub fn of(unit: &Unit, call: &Call) -> Option<Kind> {
        Some(match call {
            Call::Power(64 | 512) => Kind::Power,
            Call::Power(_) => Kind::PowerRefused,
            Call::Setup(packet, buffer) => {
                if packet.len() != 8 || *buffer < 24 {
                    return Some(Kind::SetupRefused);
                }
                let row = SETUP_ROWS.iter().find(|row| row.request == packet[1] && row.fits(packet) == [true; 4]);
                let Some(row) = row else { return Some(Kind::NoRow) };
                let value = packet[2];
                let index = u16::from(packet[4]);
                match row.name {
                    "INITIATE_ABORT_BULK_OUT" if value == abort_tag_out(unit) => Kind::AbortOut,
                    "INITIATE_ABORT_BULK_OUT" => Kind::AbortOutOtherTag,
                    "CHECK_ABORT_BULK_OUT" => Kind::CheckAbortOut,
                    "INITIATE_ABORT_BULK_IN" if value == abort_tag_in(unit) => Kind::AbortIn,
                    "INITIATE_ABORT_BULK_IN" => Kind::AbortInOtherTag,
                    "CHECK_ABORT_BULK_IN" => Kind::CheckAbortIn,
                    "INITIATE_CLEAR" => Kind::InitiateClear,
                    "CHECK_CLEAR_STATUS" => Kind::CheckClear,
                    "GET_CAPABILITIES" => Kind::GetCapabilities,
                    "INDICATOR_PULSE" => Kind::IndicatorPulse,
                    "READ_STATUS_BYTE" => Kind::ReadStatusByte,
                    "REN_CONTROL" if value == 0 => Kind::RenOff,
                    "REN_CONTROL" => Kind::RenOn,
                    "GO_TO_LOCAL" => Kind::GoToLocal,
                    "LOCAL_LOCKOUT" => Kind::LocalLockout,
                    "CLEAR_FEATURE" if index == BULK_OUT => Kind::ClearFeatureOut,
                    "CLEAR_FEATURE" if index == BULK_IN => Kind::ClearFeatureIn,
                    "CLEAR_FEATURE" => Kind::ClearFeatureInterrupt,
                    "SET_FEATURE" if index == BULK_OUT => Kind::SetFeatureOut,
                    "SET_FEATURE" if index == BULK_IN => Kind::SetFeatureIn,
                    "SET_FEATURE" => Kind::SetFeatureInterrupt,
                    "GET_STATUS" if index == BULK_OUT => Kind::GetStatusOut,
                    "GET_STATUS" if index == BULK_IN => Kind::GetStatusIn,
                    "GET_STATUS" => Kind::GetStatusInterrupt,
                    _ if value == 0 => Kind::Unconfigure,
                    _ => Kind::Configure,
                }
            }
            Call::Out(packet) => match packet[..] {
                _ if packet.len() > unit.packet_size => Kind::OutTooLong,
                [] => Kind::OutEmpty,
                _ if unit.out_transfer.is_some() => Kind::OutContinuing,
                [1, ..] => Kind::OutMessage,
                [2, ..] => Kind::OutRequest,
                [128, ..] => Kind::OutTrigger,
                _ => Kind::OutUnknown,
            },
            Call::In(Some(buffer)) if *buffer < unit.packet_size => Kind::InSmall,
            Call::In(_) => Kind::In,
            Call::In3(buffer) if *buffer < NOTIFY => Kind::In3Small,
            Call::In3(_) => Kind::In3,
            Call::Take(_) => Kind::Take,
            Call::Offer(reply) if reply.is_empty() || reply.len() > STORE => Kind::OfferRefused,
            Call::Offer(_) => Kind::Offer,
            Call::Status(status) if status & BIT_6 != 0 => Kind::ServiceRequest,
            Call::Status(_) => Kind::Status,
            Call::Local => Kind::Local,
            Call::Reset => Kind::Reset,
            Call::Suspend => Kind::Suspend,
            Call::State | Call::More => return None,
        })
    }
}

/// The tag of the open OUT transfer, else the most recent one.
pub fn abort_tag_out(unit: &Unit) -> u8 {
    unit.out_transfer.as_ref().map_or(unit.out_recent, |transfer| transfer.tag)
}

/// The tag of the open IN transfer, else the most recent one.
pub fn abort_tag_in(unit: &Unit) -> u8 {
    unit.in_transfer.as_ref().map_or(unit.in_recent, |transfer| transfer.tag)
}

#[cfg(test)]
mod tests {
    use super::*;

    #[test]
    fn the_kinds_stand_in_their_order() {
        for (index, (kind, name)) in KINDS.iter().enumerate() {
            assert_eq!(*kind as usize, index, "{name}");
        }
    }
}
