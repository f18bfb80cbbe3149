//! The table of remote/local states, a column to a function, and what gives "LOCS and REN off".

use super::{Remote, Unit};

impl Unit {
    /// The column "DEV_DEP_MSG_OUT header, REN on"
    pub(super) fn headed(&mut self) {
        if self.ren {
            self.remote = match self.remote {
                Remote::Locs | Remote::Rems => Remote::Rems,
                Remote::Lwls | Remote::Rwls => Remote::Rwls,
            };
        }
    }

    /// The column "GO_TO_LOCAL"
    pub(super) fn go_to_local(&mut self) {
        self.remote = match self.remote {
            Remote::Locs | Remote::Rems => Remote::Locs,
            Remote::Lwls | Remote::Rwls => Remote::Lwls,
        };
    }

    /// The column "panel"
    pub(super) fn by_panel(&mut self) {
        self.remote = match self.remote {
            Remote::Locs | Remote::Rems => Remote::Locs,
            Remote::Lwls => Remote::Lwls,
            Remote::Rwls => Remote::Rwls,
        };
    }

    /// The column "LOCAL_LOCKOUT, REN on"
    pub(super) fn locked_out(&mut self) {
        if self.ren {
            self.remote = match self.remote {
                Remote::Locs | Remote::Lwls => Remote::Lwls,
                Remote::Rems | Remote::Rwls => Remote::Rwls,
            };
        }
    }

    /// "LOCS and REN off"
    pub(super) fn local_now(&mut self) {
        self.ren = false;
        self.remote = Remote::Locs;
    }
}
