//! §3: a binary relay on the output, switched by Present_Value.

use crate::answer::{self, Answer};
use crate::output::Output;

impl Output {
    /// "Turns active when Present_Value is at or above the first, and inactive
    /// when at or below the second." Between the two it stays as it was.
    pub fn judge_relay(&mut self) {
        let shown = self.present_value();
        if shown >= self.settings.binary_active_value {
            self.active = true;
        }
        if shown <= self.settings.binary_inactive_value {
            self.active = false;
        }
    }

    /// "The relay's state is that value, or its opposite under reverse."
    pub fn relay_state(&self) -> bool {
        if self.settings.polarity_reverse {
            !self.active
        } else {
            self.active
        }
    }

    /// "16: a write to 17 or 18 that would leave the inactive value not below
    /// the active one", both in units.
    pub fn set_relay_values(&mut self, active: u32, inactive: u32) -> Answer {
        if inactive >= active {
            return Answer::Refused(answer::INACTIVE_NOT_BELOW_ACTIVE);
        }
        self.settings.binary_active_value = active;
        self.settings.binary_inactive_value = inactive;
        Answer::Done
    }
}
