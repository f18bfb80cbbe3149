//! Alignment bytes are counted, and what the calls after them might show of old bytes, those that are not 0: "they still
//! reach no message and no count" (02, 2).

use super::Coverage;
use crate::cells::*;
use crate::line::Answered;
use crate::unit::{Number, Split, Unit, STORE};

/// Where old bytes came, as far as a later call might show them.
#[derive(Default)]
pub(super) struct OldBytes {
    /// The most recent OUT tag came in a packet with some; it was another before, and no call came since.
    tag: bool,
    tag_just_moved: bool,
    /// Of the message held: some came with its last bytes, and some before bytes of a later transfer.
    behind: bool,
    within: bool,
    /// Some came with the message that was taken last.
    taken: bool,
    /// What the CHECK of the abort-OUT in progress is counted as.
    abort: Option<&'static str>,
}

impl Coverage {
    /// A packet: which of its alignment bytes are not 0 where it completes its transfer, its number where it is refused.
    pub(super) fn observe_alignment(&mut self, before: &Unit, packet: &[u8], number: u8, after: &Unit) {
        let Some(place) = alignment_place(before, packet) else { return };
        let name = if before.out_transfer.is_some() { "continuing packet" } else { "first packet" };
        let alignment = alignment_bytes(before, packet);
        let old: Vec<usize> = (0..alignment.len()).filter(|&at| alignment[at] != 0).collect();
        let length = packet.len() as u64;
        if number != 0 {
            if !old.is_empty() {
                self.boundary(before, &format!("{name}, old bytes, is {number}"));
            }
            let too_many = packet.get(place.end as usize..).unwrap_or_default();
            for (holds, cell) in [
                (number == 6 && !old.is_empty() && length + 1 == place.end, "old bytes, one too few is 6"),
                (number == 6 && !old.is_empty() && length == place.end + 1, "old bytes, one too many is 6"),
                (
                    number == 11 && place.is_empty() && too_many.len() == 4 && !too_many.contains(&0),
                    "no alignment byte due, 4 not 0 are 11",
                ),
            ] {
                if holds {
                    self.boundary(before, &format!("{name}, {cell}"));
                }
            }
            return;
        }
        if after.out_transfer.is_some() {
            return;
        }
        for (sweep, &value) in self.alignment.iter_mut().zip(alignment) {
            sweep.see(usize::from(value));
        }
        let all = alignment.len();
        match (all, &old[..]) {
            (0, _) => self.boundary(before, &format!("{name}, no alignment byte")),
            (1, []) => self.boundary(before, &format!("{name}, 1 alignment byte, 0")),
            (_, []) => self.boundary(before, &format!("{name}, {all} alignment bytes, 0")),
            (_, [at]) => {
                self.boundary(before, &format!("{name}, {} alignment byte of {all} not 0", ALIGNMENT_PLACES[*at]))
            }
            _ if old.len() == all => self.boundary(before, &format!("{name}, all alignment bytes of {all} not 0")),
            _ => {}
        }
        if !old.is_empty() && packet.len() == before.packet_size {
            self.boundary(before, &format!("{name} of P, old bytes"));
        }
    }

    /// A call, which is a packet with old bytes or may show some that came before it.
    pub(super) fn observe_old_bytes(
        &mut self,
        before: &Unit,
        kind: Kind,
        old_bytes: bool,
        answered: &Answered,
        after: &Unit,
    ) {
        let done = answered.number == Number::Done;
        let status = answered.bytes.as_ref().and_then(|bytes| bytes.first().copied());
        let OldBytes { tag, behind, within, taken, abort, .. } = self.old_bytes;
        let initiate = matches!(kind, Kind::AbortOut | Kind::AbortOutOtherTag) && done;
        let take = kind == Kind::Take && done;
        let full = before.held() == STORE;
        self.boundaries(
            before,
            &[
                (
                    initiate && tag && before.out_transfer.is_none(),
                    "INITIATE_ABORT_BULK_OUT tells the tag of a header with old bytes",
                ),
                (
                    kind == Kind::AbortOut && behind && status == Some(0x80),
                    "INITIATE_ABORT_BULK_OUT after a transfer with old bytes is 80",
                ),
                (take && behind, "take, old bytes behind the message"),
                (take && within, "take, old bytes within the message"),
                (take && behind && full, "take of 1,024 bytes, old bytes behind the message"),
                (take && within && full, "take of 1,024 bytes, old bytes within the message"),
            ],
        );
        if let (Kind::CheckAbortOut, Some(0x01), Some(name)) = (kind, status, abort) {
            self.boundary(before, name);
        }
        if kind == Kind::Configure || !after.configured {
            self.old_bytes = OldBytes::default();
            return;
        }
        let header = matches!(kind, Kind::OutMessage | Kind::OutRequest | Kind::OutTrigger) && done;
        let data = matches!(kind, Kind::OutMessage | Kind::OutContinuing) && done;
        let held = after.held() > 0;
        let aborted = initiate && status == Some(0x01);
        self.old_bytes = OldBytes {
            tag: if header { old_bytes } else { tag && after.out_recent != 0 },
            tag_just_moved: header && old_bytes && after.out_recent != before.out_recent,
            behind: held && if data { old_bytes } else { behind },
            within: held && (within || (data && behind)),
            taken: if take { behind || within } else { taken },
            abort: match after.split {
                Split::AbortOut { .. } if aborted && within => {
                    Some("CHECK_ABORT_BULK_OUT, old bytes before in the message")
                }
                Split::AbortOut { .. } if aborted && taken => {
                    Some("CHECK_ABORT_BULK_OUT, old bytes in the message before")
                }
                Split::AbortOut { .. } => abort,
                _ => None,
            },
        };
    }

    /// `state` right after the call, or with nothing but `more` between.
    pub(super) fn observe_state(&mut self, before: &Unit) {
        if std::mem::take(&mut self.old_bytes.tag_just_moved) {
            self.boundary(before, "state shows the tag of a header with old bytes");
        }
    }
}
