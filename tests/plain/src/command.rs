//! Kinds 10 to 1B: the lighting commands.

use crate::answer::{self, Answer};
use crate::frame::*;
use crate::last_command::LastCommand;
use crate::movement::Movement;
use crate::output::{Output, RunningDuration};
use crate::parameters::Parameters;
use crate::real;
use crate::tags;

/// The first field out of range refuses: "fields left to right", which is the
/// order of their tags.
pub fn out_of_range(command: &LastCommand, parameters: &Parameters) -> Option<u8> {
    let wrong_level = command
        .level
        .is_some_and(|bits| real::level(bits).is_none());
    let wrong = |field: Option<u32>| field.is_some_and(|bits| real::rate_or_step(bits).is_none());
    if wrong_level || wrong(command.rate) || wrong(command.step) {
        return Some(answer::REAL);
    }
    let fade_time = command
        .fade_time
        .is_none_or(|milliseconds| parameters.is_fade_time(milliseconds));
    let duration = command
        .duration
        .is_none_or(|milliseconds| parameters.is_duration(milliseconds));
    (!fade_time || !duration).then_some(answer::WHOLE_NUMBER)
}

impl Output {
    /// Kinds 10 to 1A.
    pub fn command(&mut self, parameters: &Parameters, bytes: &[u8]) -> Answer {
        self.carry_out_if_in_range(parameters, LastCommand::of_plain_kind(bytes))
    }

    /// Kind 1B: "it acts as the plain kind does." A duration of FFFFFFFF is out
    /// of range here, since absent is missing.
    pub fn tagged_command(&mut self, parameters: &Parameters, bytes: &[u8]) -> Answer {
        let reading = tags::read(tagged_body(bytes));
        match reading.refusal() {
            Some(number) => Answer::Refused(number),
            None => self.carry_out_if_in_range(parameters, reading.command),
        }
    }

    fn carry_out_if_in_range(&mut self, parameters: &Parameters, command: LastCommand) -> Answer {
        match out_of_range(&command, parameters) {
            Some(number) => Answer::Refused(number),
            None => {
                self.carry_out(&command);
                self.last = command;
                Answer::Done
            }
        }
    }

    /// The level in units, of a command that has one.
    fn target(&self, command: &LastCommand) -> u32 {
        let level = command.level.and_then(real::level).expect("in range");
        self.settings.into_range_if_lit(level)
    }

    /// Units a second, of the command or of the setting.
    pub fn rate(&self, command: &LastCommand) -> u32 {
        let bits = command.rate.unwrap_or(self.settings.ramp_rate);
        real::rate_or_step(bits).expect("in range")
    }

    /// The step in units, of the command or of the setting.
    pub fn step(&self, command: &LastCommand) -> u32 {
        let bits = command.step.unwrap_or(self.settings.step_increment);
        real::rate_or_step(bits).expect("in range")
    }

    /// "A command acts on slot p, Lighting_Command_Priority."
    fn carry_out(&mut self, command: &LastCommand) {
        let priority = self.settings.lighting_command_priority;
        // "It starts from Progress_Value before it and first ends any warning
        // by emptying slot 6."
        let start = self.progress_value();
        self.end_warning();
        match STOP + command.operation {
            STOP => self.stop(priority),
            FADE_TO | FADE_TO_OVER => {
                let target = self.target(command);
                let fade_time = command.fade_time.unwrap_or(self.settings.fade_time);
                let movement = Movement::fade(priority, start, target, fade_time);
                self.aim(priority, target, movement);
            }
            RAMP_TO | RAMP_TO_AT_RATE => {
                let target = self.target(command);
                let movement = Movement::ramp(priority, start, target, self.rate(command));
                self.aim(priority, target, movement);
            }
            // "GOTO and steps jump."
            STEP_UP | STEP_UP_BY => {
                let target = self.stepped_up(start, self.step(command));
                self.aim(priority, target, None);
            }
            STEP_DOWN | STEP_DOWN_BY => {
                let target = self.stepped_down(start, self.step(command));
                self.aim(priority, target, None);
            }
            GOTO => self.aim(priority, self.target(command), None),
            RELINQUISH => {
                self.empty(priority);
                if self.owns_movement(priority) {
                    self.movement = None;
                }
            }
            _ => unreachable!("an operation is 0 to 10"),
        }
        self.set_duration(priority, command.duration);
    }

    /// "A target is put in slot p. If p is then the winner it replaces the
    /// movement; if not, an existing movement goes on."
    fn aim(&mut self, priority: u8, target: u32, movement: Option<Movement>) {
        self.store(priority, target);
        if self.winner() == Some(priority) {
            self.movement = movement;
        }
    }

    /// "Step up: s plus step, brought into Min..Max."
    fn stepped_up(&self, start: u32, step: u32) -> u32 {
        self.settings.into_range(start + step)
    }

    /// "Step down: s minus step, not below 0; brought into Min..Max. Step down
    /// from s = 0 stays 0."
    fn stepped_down(&self, start: u32, step: u32) -> u32 {
        match start {
            0 => 0,
            _ => self.settings.into_range(start.saturating_sub(step)),
        }
    }

    /// "STOP: if a movement belongs to p, it ends and slot p gets the reached
    /// level, raised to Min if above zero. Else it changes no slot."
    fn stop(&mut self, priority: u8) {
        if !self.owns_movement(priority) {
            return;
        }
        let reached = self.progress_value();
        self.movement = None;
        self.store(
            priority,
            match reached {
                0 => 0,
                _ => reached.max(self.settings.minimum),
            },
        );
    }

    /// "Slot p empties d ms later"; "a new one replaces it, 0 cancels it, Absent
    /// leaves it running."
    fn set_duration(&mut self, priority: u8, duration: Option<u32>) {
        match duration {
            None => {}
            Some(0) => self.duration = None,
            Some(milliseconds) => {
                self.duration = Some(RunningDuration {
                    slot: priority,
                    left: u64::from(milliseconds),
                });
            }
        }
    }
}
