//! Kinds 02 and 03: writing Present_Value and emptying a slot.

use crate::answer::{self, Answer};
use crate::output::{Output, WARNING_SLOT};
use crate::real;

/// "Priority 0, 6 or over 16" is refused.
pub fn is_priority(number: u32) -> bool {
    (1..=16).contains(&number) && number != u32::from(WARNING_SLOT)
}

impl Output {
    /// Kind 02. Fields left to right: priority, then REAL.
    pub fn write_present_value(&mut self, priority: u8, bits: u32) -> Answer {
        if !is_priority(u32::from(priority)) {
            return Answer::Refused(answer::PRIORITY);
        }
        let Some(level) = real::level(bits) else {
            return Answer::Refused(answer::REAL);
        };
        if self.warning.is_some() {
            self.write_in_warning(priority, level);
            return Answer::Done;
        }
        if level == 0 && self.starts_warning(priority) {
            self.start_warning(priority);
        }
        self.store(priority, level);
        // "A movement goes on if P is above its owner's number; else it ends."
        if self
            .movement
            .as_ref()
            .is_some_and(|movement| priority <= movement.owner)
        {
            self.movement = None;
        }
        Answer::Done
    }

    /// "During a warning: kind 02 of zero at P above 6 empties slots 6 and P;
    /// of zero at P below 6 it empties slot 6 and stores; of non-zero it
    /// empties slot 6 and stores."
    fn write_in_warning(&mut self, priority: u8, level: u32) {
        self.end_warning();
        if level == 0 && priority > WARNING_SLOT {
            self.empty(priority);
        } else {
            self.store(priority, level);
        }
    }

    /// Kind 03. In a warning it "leaves it running".
    pub fn empty_a_slot(&mut self, priority: u8) -> Answer {
        if !is_priority(u32::from(priority)) {
            return Answer::Refused(answer::PRIORITY);
        }
        let was_live = self.slot(priority).is_some();
        self.empty(priority);
        // "A movement goes on if P is above its owner's number, or if kind 03
        // empties an empty slot; else it ends."
        if was_live
            && self
                .movement
                .as_ref()
                .is_some_and(|movement| priority <= movement.owner)
        {
            self.movement = None;
        }
        Answer::Done
    }
}
