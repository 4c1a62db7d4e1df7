//! The relay of an output (§3): a switch with two points, so that it does not
//! chatter where Present_Value lies about one of them.

use crate::output::Output;

impl Output {
    /// Takes over what the relay is to do from now on.
    pub fn judge(&mut self) {
        self.active = self.judged();
    }

    /// An active relay waits for the lower point, an inactive one for the upper.
    pub fn judged(&self) -> bool {
        let shown = self.present_value();
        if self.active {
            shown > self.settings.inactive_value
        } else {
            shown >= self.settings.active_value
        }
    }

    pub fn relay_is_on(&self) -> bool {
        self.active != self.settings.reverse
    }
}
