//! "Blink warning: 12.X.15.1 is made exact so."

use crate::output::{Output, WARNING_SLOT};

#[derive(Clone, Copy, Debug, PartialEq, Eq)]
pub struct Warning {
    /// The paper's X.
    pub slot: u8,
    /// "B, D and Y are those of the start."
    pub dark_time: u64,
    pub lit_time: u64,
    pub level: u32,
    /// Milliseconds since the start.
    pub gone: u64,
}

impl Output {
    /// "Kind 02 of level 0 at X from 7 to 16 starts a warning if Blink_Enable is
    /// 1, Blink_Time B plus delay D is above 0, none is running, slots 1 to X - 1
    /// are empty, Present_Value Y was above 0, and Relinquish_Default and slots
    /// X + 1 to 16 are zero or empty."
    pub fn starts_warning(&self, priority: u8) -> bool {
        let settings = &self.settings;
        (7..=16).contains(&priority)
            && settings.blink_enable
            && settings.blink_time + settings.blink_warn_delay > 0
            && self.warning.is_none()
            && (1..priority).all(|stronger| self.slot(stronger).is_none())
            && self.present_value() > 0
            && settings.relinquish_default == 0
            && (priority + 1..=16).all(|weaker| self.slot(weaker).unwrap_or(0) == 0)
    }

    /// "B, D and Y are those of the start." "Slot X gets 0" is left to the
    /// writer, who stores 0 there anyway.
    pub fn start_warning(&mut self, priority: u8) {
        self.warning = Some(Warning {
            slot: priority,
            dark_time: u64::from(self.settings.blink_time),
            lit_time: u64::from(self.settings.blink_warn_delay),
            level: self.present_value(),
            gone: 0,
        });
        self.set_warning_slots();
    }

    /// "Slot 6 holds 0 for B ms, then Y for D ms, then is empty; if D is above
    /// 0, slot X empties with it."
    fn set_warning_slots(&mut self) {
        let Some(warning) = self.warning else {
            return;
        };
        if warning.gone < warning.dark_time {
            self.store(WARNING_SLOT, 0);
        } else if warning.gone < warning.dark_time + warning.lit_time {
            self.store(WARNING_SLOT, warning.level);
        } else {
            self.empty(WARNING_SLOT);
            if warning.lit_time > 0 {
                self.empty(warning.slot);
            }
            self.warning = None;
        }
    }

    /// One millisecond: "then the warning's slots are set".
    pub fn pass_warning(&mut self) {
        if let Some(warning) = &mut self.warning {
            warning.gone += 1;
            self.set_warning_slots();
        }
    }

    /// A write or a command ends it: "empties slot 6", and nothing but that.
    pub fn end_warning(&mut self) {
        if self.warning.take().is_some() {
            self.empty(WARNING_SLOT);
        }
    }
}
