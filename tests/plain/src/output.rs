//! "An output's record", without what a list never sees.

use crate::last_command::LastCommand;
use crate::movement::Movement;
use crate::parameters::Parameters;
use crate::settings::Settings;
use crate::warning::Warning;

/// The slot that a warning takes while it lasts.
pub const WARNING_SLOT: u8 = 6;

/// "Slot p empties d ms later. An output has at most one running, tied to its
/// slot."
#[derive(Clone, Copy, Debug, PartialEq, Eq)]
pub struct RunningDuration {
    pub slot: u8,
    /// Milliseconds still to be lived, at least 1.
    pub left: u64,
}

#[derive(Clone, Copy, Debug, PartialEq, Eq)]
pub struct Output {
    /// Slot 1 stands first; nothing in a slot that is not live.
    slots: [Option<u32>; 16],
    pub settings: Settings,
    pub movement: Option<Movement>,
    pub warning: Option<Warning>,
    pub duration: Option<RunningDuration>,
    pub last: LastCommand,
    /// Milliseconds with Progress_Value above zero (§2).
    pub burning: u64,
    /// Whether Binary_Present_Value is active (§3).
    pub active: bool,
}

impl Output {
    /// "A fresh record has no live slot, last operation STOP without duration,
    /// burning time 0"; Binary_Present_Value "starts inactive" (§3).
    pub fn fresh(parameters: &Parameters) -> Output {
        Output {
            slots: [None; 16],
            settings: Settings::fresh(parameters),
            movement: None,
            warning: None,
            duration: None,
            last: LastCommand::fresh(),
            burning: 0,
            active: false,
        }
    }

    pub fn slot(&self, priority: u8) -> Option<u32> {
        self.slots[usize::from(priority) - 1]
    }

    pub fn store(&mut self, priority: u8, level: u32) {
        self.slots[usize::from(priority) - 1] = Some(level);
    }

    pub fn empty(&mut self, priority: u8) {
        self.slots[usize::from(priority) - 1] = None;
    }

    /// The lowest live priority.
    pub fn winner(&self) -> Option<u8> {
        (1..=16).find(|priority| self.slot(*priority).is_some())
    }

    /// "Present_Value is the winner's level, or Relinquish_Default with no live
    /// slot; if above zero it is brought into Min..Max."
    pub fn present_value(&self) -> u32 {
        let level = match self.winner() {
            Some(priority) => self.slot(priority).unwrap_or(0),
            None => self.settings.relinquish_default,
        };
        self.settings.into_range_if_lit(level)
    }

    /// "Without a movement, in a warning too, Progress_Value equals
    /// Present_Value."
    pub fn progress_value(&self) -> u32 {
        match &self.movement {
            Some(movement) => movement.reached,
            None => self.present_value(),
        }
    }

    pub fn owns_movement(&self, priority: u8) -> bool {
        self.movement
            .as_ref()
            .is_some_and(|movement| movement.owner == priority)
    }
}
