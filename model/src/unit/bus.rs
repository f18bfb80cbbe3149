//! The bus: reset and suspend.

use super::{Answer, Unit};

impl Unit {
    /// "Bus reset does what SET_CONFIGURATION 0 does."
    pub fn bus_reset(&mut self) -> Answer {
        self.configure(false);
        Answer::done()
    }

    /// Suspend gives "LOCS and REN off" and "changes nothing else", configured or not.
    pub fn suspend(&mut self) -> Answer {
        self.local_now();
        Answer::done()
    }
}
